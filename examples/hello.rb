# The first script.
name = "world"
puts "Hello, " + name + "!"
