# Methods of the program that are given blocks.
def count(from, to)
  while from <= to
    yield from
    from += 1
  end
end

# A block reads and sets the variables of what stands round it.
sum = 0
count(1, 10) { |number| sum += number }
puts "the sum is #{sum}"

# `return` in a block leaves the method in which the block stands.
def first(from, to)
  count(from, to) do |number|
    return number if yield number
  end
  "none"
end

puts first(1, 100) { |number| number * number > 50 }
puts first(1, 3) { |number| number > 5 }

# `next` ends the block's turn, `break` the call that has the block.
odd = []
last = count(1, 100) do |number|
  next if number % 2 == 0
  break number if number > 9
  odd << number
end
p odd, last

# A block stands inside another one, and `ensure` follows every exit.
def guarded
  yield
ensure
  puts "done"
end

guarded do
  count(1, 2) { |a| count(a, 2) { |b| puts "#{a} #{b}" } }
end

def asks
  block_given? ? yield : "no block"
end

puts asks, asks { "a block" }
