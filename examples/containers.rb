# Arrays, and what `puts`, `p` and `print` write of any value.
squares = []
i = 0
while i < 5
  squares << [i, i * i]
  i = i + 1
end
p squares
puts squares[2], squares.size

print "a", 1, :b, nil, [2, "c"], "\n"
p "a\tb", nil, :c
puts [1, [2, [nil, "x"]], []]

loop_back = [1]
loop_back << loop_back
p loop_back

e = RuntimeError.new("late")
p e, Object.new, 5.class == Integer
value = (p 7) + 1
puts value
squares.freeze
squares << 1
