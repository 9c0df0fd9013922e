# An order is priced. What is not for sale is left out, and a great order gets something off.

def price(prices, name, count)
  each = prices[name]
  raise ArgumentError, "no #{name} for sale" unless each
  each * count
end

prices = {tea: 3, cake: 5, jam: 4}
order = {tea: 2, soup: 1, cake: 4}

total = 0
order.keys.each do |name|
  count = order[name]
  begin
    total += price(prices, name, count)
    puts "#{count} #{name}"
  rescue ArgumentError => e
    puts "left out: #{e.message}"
  end
end
puts "together #{total}"

# `select` and `map` make new arrays; `break` ends the call that has the block.
cheap = prices.keys.select { |name| prices[name] < 5 }
p cheap, cheap.map { |name| "#{name}: #{prices[name]}" }
p [4, 8, 15, 16].each { |number| break number if number % 5 == 0 }

# `times`, `upto` and `loop` count.
3.times { |i| print i, " " }
1.upto(3) { |i| print i * i, " " }
puts
step = 1
loop do
  step *= 2
  next if step < 50
  break
end
puts step
