# A program's own methods: a method's variables are its own, and return ends it from anywhere.
def fib(n)
  return n if n < 2
  fib(n - 1) + fib(n - 2)
end

def gcd(a, b)
  b == 0 ? a : gcd(b, a % b)
end

def first_square_above(limit)
  n = 0
  while true
    return n * n, n if n * n > limit
    n = n + 1
  end
end

puts fib(20)
puts gcd(1071, 462)
p first_square_above(1000)
