# Tries again until it goes well, and says what went wrong before.
def attempt(n)
  raise ArgumentError, "attempt #{n}" if n < 3
  n * 10
ensure
  puts "tried #{n}"
end

n = 0
while true
  n += 1
  begin
    value = attempt(n)
    break
  rescue ArgumentError => e
    puts "failed: #{e.message}"
  end
end
puts value

begin
  begin
    1 / 0
  rescue ZeroDivisionError
    raise "wrong input"
  end
rescue => e
  puts e.message, e.cause.message
end
