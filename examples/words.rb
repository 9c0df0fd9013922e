# Counts words, in the order in which they first come.
words = ["red", "blue", "red", "green", "blue", "red"]
counts = {}
i = 0
while i < words.size
  word = words[i]
  counts[word] = (counts[word] || 0) + 1
  i += 1
end
p counts
puts counts["red"], counts.size

limits = {slots: 1_000, "events" => 3,}
limits[:slots] = limits[:slots] * 2
puts limits
