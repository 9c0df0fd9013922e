# The primes below 50, by trial division.
n = 2
while n < 50
  divisor = 2
  divisor = divisor + 1 until n % divisor == 0 or divisor * divisor > n
  prime = divisor * divisor > n
  puts n if prime
  n = n + 1
end
