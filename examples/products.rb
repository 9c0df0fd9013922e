# The products of the numbers up to five, a line for each.
row = 1
while row <= 5
  line = "#{row}:"
  column = 1
  while column <= 5
    line << " #{row * column}"
    column += 1
  end
  puts line
  row += 1
end
