# Division rounds down, and the rest has the sign of the divisor.
a = 7
b = -2
puts a / b, a % b
puts -a / 2, -a % 2
puts (a / b) * b + a % b == a
