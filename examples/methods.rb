# Methods of texts, symbols and integers.
line = ""
line << "tick" << "-" while line.size < 15
puts line
puts line[0], line[-1], line.length
puts ("tick" <=> "tock"), "tick" < "tock"
puts :tick.inspect, "a \"tick\"".inspect
puts -7.abs.even?, 7.class, nil.to_s.empty?
