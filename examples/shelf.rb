# A shelf counts its books, prints itself, and is made shareable at last.
LIMIT = 2
$moves = 0

class Shelf
  attr_accessor :label

  def initialize
    @books = {}
  end

  def <<(title)
    @books[title] ||= 0
    @books[title] += 1
    $moves = $moves + 1
    self
  end

  def full
    @books.keys.select { |title| @books[title] >= LIMIT }
  end

  def to_s
    "#{label}: #{@books.keys.join(", ")}"
  end
end

shelf = Shelf.new
shelf.label ||= "Poems"
shelf << "Odes" << "Songs" << "Odes"
puts shelf, "#{$moves} moves"

first, second = shelf.full
p first, second, [*shelf.full, "Epics"]

Ractor.make_shareable(shelf)
begin
  shelf.label += "!"
rescue FrozenError => error
  puts error.message
end
p Ractor.shareable?(shelf)
