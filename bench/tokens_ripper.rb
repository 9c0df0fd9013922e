# Compares the tokens of the lexer's worked examples with what CRuby's own lexer makes of the same sources.
#
#   ruby -W0 bench/tokens_ripper.rb [crates/rr_lexer/src/rows.rt]
#
# Prints the sources on which the two differ, each with the tokens of both that differ, and last the counts. Operators and
# reserved words are compared by their spans alone, which say what they are. Of line ends only those between two tokens
# are compared, and only whether they separate. A line end behind a comment is not: Ripper makes it part of the comment.

require "ripper"

Item = Struct.new(:kind, :first, :last) do
  def to_s = %w[LineEnd ?].include?(kind) ? kind : "#{kind} #{first}..#{last}"
end

ROWS = ARGV.fetch(0) { File.expand_path("../crates/rr_lexer/src/rows.rt", __dir__) }

CONTROL = { "n" => "\n", "r" => "\r", "t" => "\t" }.freeze

MARK = "\xEF\xBB\xBF".b

KINDS = {
  on_ident: "Name", on_const: "Constant", on_ivar: "InstanceVariable", on_gvar: "GlobalVariable", on_label: "Label",
  on_int: "Int", on_kw: "Keyword", on_op: "Op", on_period: "Op", on_comma: "Op", on_semicolon: "Op", on_lparen: "Op",
  on_rparen: "Op", on_lbracket: "Op", on_rbracket: "Op", on_lbrace: "OpenBrace", on_rbrace: "CloseBrace"
}.freeze

SKIPPED = %i[on_sp on_ignored_nl].freeze

# The rows of the tables, each as the bytes of a source and what is wanted of it.
def rows(path)
  tables = File.read(path).scan(/&str = "\\\n(.*?)";/m).flatten
  tables.flat_map(&:lines).map do |line|
    text = line.chomp.gsub(/\\(x\h\h|.)/) { $1.size == 3 ? $1[1..].hex.chr : $1 }
    source, wanted = text.split(" -> ", 2)
    [source.b.gsub(/\^(n|r|t|\h\h)/) { CONTROL[$1] || $1.hex.chr }, wanted]
  end
end

# Our tokens, or nil for a refusal.
def our_items(wanted)
  return nil if wanted.match?(/\A\d+:\d+ /)
  wanted.split(", ").map do |token|
    kind, span = token.delete_prefix("_").split(" ")
    first, last = span.split("..").map(&:to_i)
    Item.new(kind.sub(/\(.*/, ""), first, last)
  end
end

# Ripper's tokens as event, first byte and bytes.
def ripper_events(source)
  skipped = source.start_with?(MARK) ? MARK.size : 0
  place = skipped
  Ripper.lex(source.byteslice(skipped..).force_encoding("UTF-8")).map do |_, event, text|
    first = place
    place += text.bytesize
    [event, first, text]
  end
end

# Ripper's tokens in our terms: a text with its pieces, a symbol with its colon.
def ripper_items(source)
  items = []
  pieces = []
  events = ripper_events(source)
  until events.empty?
    event, first, text = events.shift
    last = first + text.bytesize
    case event
    when :on_tstring_beg then pieces.push(["Text", first, text])
    when :on_embexpr_beg
      kind, begun, quote = pieces.pop || ["?", first, ""]
      items.push(Item.new(kind == "Tail" ? "Middle" : "Head", begun, last))
      pieces.push(["Tail", nil, quote])
    when :on_embexpr_end then pieces.last[1] = first if pieces.last
    when :on_tstring_end, :on_label_end
      kind, begun, quote = pieces.pop || ["?", first, ""]
      items.push(Item.new(quote == "'" ? "Single" : kind, begun, last))
      items.push(Item.new("on_label_end", last - 1, last)) if event == :on_label_end
    when :on_symbeg
      name = events.first
      plain = name && %i[on_ident on_const on_kw].include?(name[0])
      events.shift if plain
      items.push(plain ? Item.new("Symbol", first, name[1] + name[2].bytesize) : Item.new("on_symbeg", first, last))
    when :on_comment then items.push(Item.new("?", last - 1, last)) if text.end_with?("\n")
    when :on_nl then items.push(Item.new("LineEnd", first, last))
    when :on_tstring_content
    else items.push(Item.new(KINDS.fetch(event, event.to_s), first, last)) unless SKIPPED.include?(event)
    end
  end
  items
end

# The tokens without the line ends that stand first or last, and each run of those that are left as one.
def trimmed(items)
  ends = %w[LineEnd ?]
  kept = items.drop_while { |item| ends.include?(item.kind) }
  kept.pop while kept.any? && ends.include?(kept.last.kind)
  kept.chunk_while { |one, other| ends.include?(one.kind) && ends.include?(other.kind) }.map do |run|
    run.find { |item| item.kind == "?" } || run.first
  end
end

def same?(ours, theirs)
  ours.to_s == theirs.to_s || theirs&.kind == "?" && ours&.kind == "LineEnd"
end

# The tokens that differ, without those that both begin and end with.
def differing(ours, theirs)
  unknown = theirs.select { |item| item.kind == "?" }
  theirs -= unknown unless ours.any? { |item| item.kind == "LineEnd" }
  ours, theirs = ours.drop(1), theirs.drop(1) while ours.any? && same?(ours.first, theirs.first)
  ours, theirs = ours[...-1], theirs[...-1] while ours.any? && same?(ours.last, theirs.last)
  [ours, theirs]
end

def listed(items) = items.empty? ? "nothing" : items.join(", ")

count = Hash.new(0)
rows(ROWS).each do |source, wanted|
  ours = our_items(wanted)
  theirs = ripper_items(source)
  ours_left, theirs_left = ours ? differing(trimmed(ours), trimmed(theirs)) : [[wanted], theirs]
  answer = ours.nil? ? :refused : (ours_left + theirs_left).empty? ? :same : :different
  count[answer] += 1
  next if answer == :same
  shown = source.dup.force_encoding("UTF-8").inspect
  puts "#{shown}\n    ours:  #{listed(ours_left)}\n    CRuby: #{listed(theirs_left)}"
end
puts "#{count[:same]} the same, #{count[:different]} different, #{count[:refused]} refused here"
