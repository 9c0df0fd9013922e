# Compares scripts made by chance with what CRuby makes of them.
#
#   ruby -W0 bench/scripts_by_chance.rb PROGRAM [FIRST [COUNT]]
#
# PROGRAM is the built `ractor`. Each number from FIRST on (0) makes one script, the same each time: classes, of exceptions too, with
# attributes and `super`, methods with blocks, short methods, loops, clauses and `ensure` parts inside one another, iterations, containers
# and operators, most of them on values that do not suit. The script runs in PROGRAM and in a CRuby that bench/profile.rb and
# bench/strict.rb have bent to the language; each number whose outputs or errors differ is printed, and last the counts. A script that one
# of the two refuses as a syntax error wants the other to refuse it too; one that needs what is not evaluated yet is passed over, and so is
# one that takes CRuby more than ten seconds. It is no part of the gate.

require "open3"
require "rbconfig"
require "tempfile"

# A script by chance.
class Script
  NAMES = %w[a b c].freeze
  WRONG = ["", " TypeError", " StandardError", " ZeroDivisionError, NoMethodError", " ArgumentError"].freeze
  RAISED = ['"t"', "ArgumentError", 'TypeError, "u"', 'ZeroDivisionError.new("z")', "StopIteration", "Ractor::ClosedError, \"v\""].freeze
  PLAIN = %w[size to_s inspect nil? class abs even? zero? first last empty? keys values sum frozen? dup freeze length odd? shift pop].freeze
  ONE = %w[include? push equal? is_a? key? delete join].freeze
  INFIX = %w[+ - * / % < > <= >= == != <=> <<].freeze
  ABOVE = ["", "", " < StandardError", " < ArgumentError"].freeze
  FIELDS = %w[@x @y].freeze
  # The methods of classes, by how many parameters they have.
  OWN = [%w[m0 x y], %w[m1 ==], %w[m2]].freeze
  ITERATIONS = ["3.times", "2.upto(4)", "[1, 2, 3].each", "[[1, 2], [3]].each", "[4, 5].each_with_index", "[6, 7, 8].map",
                "[1, nil, 2].select", "{k: 1, 2 => [3]}.each"].freeze

  def initialize(seed)
    @random = Random.new(seed)
    @known = NAMES
    @methods = []
    @classes = []
    @deep = @loops = @blocks = @counters = 0
    @in_method = @yields = false
  end

  def text
    definitions = Array.new(any(4)) { |number| definition(number) } + short_methods + Array.new(any(4)) { |number| class_of(number) }
    start = "a = #{@classes.empty? ? pick('1', '[]', '"q"', 'nil') : made}; b = #{pick('2', '{}', '[1, 2]')}; c = #{pick('3', ':z', '"w"')}"
    (definitions + [start] + Array.new(2 + any(4)) { statement }).join("\n") + "\n"
  end

  private

  def any(count) = @random.rand(count)
  def pick(*choices) = choices[any(choices.size)]
  def likely?(share) = @random.rand < share
  def several(most) = Array.new(1 + any(most)) { statement }.join("; ")

  def deeper
    @deep += 1
    yield
  ensure
    @deep -= 1
  end

  def definition(number)
    count = any(3)
    @in_method, @yields = true, likely?(0.7)
    others = NAMES.drop(count).map { |name| "#{name} = #{pick('0', 'nil', '[]', '"s"')}" }.join("; ")
    body = several(3)
    last = likely?(0.3) ? "ensure; p #{number}; " : ""
    @methods += [["f#{number}", count, @yields]]
    "def f#{number}(#{NAMES.take(count).join(', ')}); #{others.empty? ? 'nil' : others}; #{body}; #{last}end"
  ensure
    @in_method = @yields = false
  end

  def class_of(number)
    parent = pick(*@classes) if likely?(0.6) && !@classes.empty?
    above = parent ? " < #{parent.first}" : pick(*ABOVE)
    raised = parent ? parent.last : above.include?("Error")
    count = any(3)
    members = ["attr_#{pick('reader', 'writer', 'accessor')} #{pick(':x', ':y', ':x, :y')}"] if likely?(0.6)
    members = Array(members) + [method_of("initialize", count)] if likely?(0.7)
    members = Array(members) + Array.new(any(3)) { any(3).then { |wanted| method_of(pick(*OWN[wanted]), wanted) } }
    members += ["def to_s; \"<#{number}>\"; end"] if likely?(0.3) && !raised
    @classes += [["K#{number}", count, raised]]
    (["class K#{number}#{above}"] + members + ["end"]).join("\n")
  end

  def method_of(name, count)
    @in_method = true
    parameters = NAMES.take(count)
    others = NAMES.drop(count).map { |other| "#{other} = #{pick('0', 'nil', '@x')}" }.join("; ")
    first = likely?(0.4) ? pick("super; ", "super(); ", "p super; ", "super(#{atom}); ") : ""
    "def #{name}(#{parameters.join(', ')}); #{others}; #{first}#{FIELDS[any(2)]} = #{atom}; #{several(2)}; end"
  ensure
    @in_method = false
  end

  def own
    case any(5)
    when 0, 1 then pick(*FIELDS)
    when 2 then "self"
    when 3 then made
    else sent
    end
  end

  def made
    name, count, = pick(*@classes)
    "#{name}.new(#{Array.new(likely?(0.9) ? count : any(4)) { atom }.join(', ')})"
  end

  def sent
    wanted = any(3)
    name = pick(*OWN[wanted].grep(/\w/))
    "#{pick(atom, 'self', *@known)}.#{name}(#{Array.new(wanted) { atom }.join(', ')})"
  end

  def atom
    return deeper { own } if !@classes.empty? && @deep < 5 && likely?(0.25)

    case any(13)
    when 12 then pick("$g", "A", "B")
    when 0..2 then pick("0", "1", "2", "3", "5", "7", "10", "-1", "-3")
    when 3..5 then pick(*@known)
    when 6 then "\"#{pick('', 'x', 'ab', 'tick', 'é')}\""
    when 7 then pick("nil", "true", "false")
    when 8 then pick(":k", ":sym")
    when 9 then "[#{Array.new(any(3)) { atom }.join(', ')}]"
    when 10 then "{#{Array.new(any(3)) { "#{pick('1', '2', ':k', '"x"', 'nil')} => #{atom}" }.join(', ')}}"
    else "(#{expression})"
    end
  end

  def expression
    deeper { @deep > 5 ? atom : deep_expression }
  end

  def deep_expression
    case any(24)
    when 0..4 then atom
    when 5..7 then "#{atom} #{pick(*INFIX)} #{atom}"
    when 8 then "#{atom} && #{atom}"
    when 9 then "#{atom} || #{atom}"
    when 10 then "(#{atom} ? #{atom} : #{atom})"
    when 11 then "!#{atom}"
    when 12, 13 then "#{atom}.#{pick(*PLAIN)}"
    when 14 then "#{atom}[#{atom}]"
    when 15 then "\"#{pick('', '<')}\#{#{atom}}#{pick('', '>')}\""
    when 16 then "#{atom}.#{pick(*ONE)}(#{atom})"
    when 17 then "(#{pick(*@known)} = #{expression})"
    when 18 then "(#{pick(*@known)} #{pick('+', '-', '*', '||', '&&')}= #{expression})"
    when 19 then @methods.empty? ? atom : call
    when 20 then "begin; #{expression}; rescue => e; e.message; end"
    when 21 then @yields ? "yield(#{Array.new(any(3)) { atom }.join(', ')})" : atom
    when 22 then iteration
    when 23 then likely?(0.3) ? pick("lost #{block}", "lost(#{atom}) #{block}", "#{atom}.lost(#{atom}) #{block}") : atom
    else atom
    end
  end

  def call
    name, count, yields = pick(*@methods)
    arguments = Array.new(likely?(0.93) ? count : count + 1) { atom }.join(", ")
    yields && likely?(0.85) ? "#{name}(#{arguments}) #{block}" : "#{name}(#{arguments})"
  end

  def iteration = likely?(0.9) ? "#{pick(*ITERATIONS)} #{block}" : counted_forever

  def counted_forever
    counter = "i#{@counters += 1}"
    "(#{counter} = 0; loop { #{counter} += 1; break #{atom} if #{counter} > 2; #{body_of('')} })"
  end

  def block
    names = pick("", "x", "x, y")
    bars = names.empty? ? "" : "|#{names}| "
    "{ #{bars}#{body_of(names)} }"
  end

  def body_of(names)
    known, loops = @known, @loops
    @known, @loops = @known + names.split(", "), 0
    @blocks += 1
    several(2)
  ensure
    @known, @loops = known, loops
    @blocks -= 1
  end

  def statement
    deeper { @deep > 5 ? shallow(any(4)) : shallow(any(40)) }
  end

  def shallow(choice)
    case choice
    when 0..3 then "p(#{expression})"
    when 4, 5 then "puts(#{expression})"
    when 6..8 then "#{pick(*NAMES)} = #{expression}"
    when 9 then "#{pick(*NAMES)} #{pick('+', '-', '*', '||', '&&')}= #{expression}"
    when 10 then "if #{expression}; #{statement}; else; #{statement}; end"
    when 11 then "p(#{expression}) #{pick('if', 'unless')} #{expression}"
    when 12, 13 then counted_loop
    when 14, 15 then @loops + @blocks > 0 ? "#{pick('break', 'next')}#{pick('', ' 1', ' 1, 2')} if #{expression}" : "p(#{atom})"
    when 16, 17 then @in_method ? "return#{pick('', " #{atom}", " 1, #{atom}")} if #{expression}" : "p(#{atom})"
    when 18..21 then guarded
    when 22 then "raise #{pick(*RAISED, *@classes.map { |name, *| pick(name, "#{name}, \"w\"") })} if #{expression}"
    when 23 then "#{pick(*@known)} << #{atom}"
    when 24 then pick("#{pick(*@known)}[#{atom}] = #{atom}", "#{pick(*@known)}.#{pick('x', 'y')} #{pick('', '+', '||')}= #{atom}")
    when 25 then @yields ? "p((yield #{atom}))" : "p(#{atom})"
    when 26, 27 then @methods.empty? ? "p(#{atom})" : pick("p(#{call})", call)
    when 28, 29 then pick("p(#{iteration})", iteration)
    when 30 then "p #{atom}, #{atom}"
    when 31 then "$g #{pick('', '+', '||')}= #{expression}"
    when 33 then "#{goal}, #{goal}#{pick('', ", #{goal}")} = #{pick(atom, "#{atom}, #{expression}")}"
    when 34 then "#{place} #{pick('', '+', '*', '||', '&&', '<<')}= #{expression}"
    when 35 then otherwise
    when 36, 37 then pick(assigning_loop, assigning_turns)
    when 32 then @in_method ? "p(A)" : "#{pick('A', 'B')} ||= #{expression}"
    else "p(#{expression})"
    end
  end

  def place = pick("#{pick(*@known)}[#{atom}]", "#{pick(*@known)}.#{pick('x', 'y')}", *FIELDS)
  def goal = likely?(0.6) ? pick(*NAMES) : pick(place, "$g")

  def spread = pick("[#{atom}, #{atom}]", "nil", "[]", "7")

  def otherwise
    case any(6)
    when 0 then "unless #{expression}; #{statement}; else; #{statement}; end"
    when 1 then "p((#{atom} #{pick('and', 'or')} not(#{atom})))"
    when 2 then "puts [*#{spread}, #{atom}], *#{spread}"
    when 3 then @methods.empty? ? "p(*#{spread})" : "p #{pick(*@methods).first}(*#{spread})"
    when 4 then "if #{atom}; #{statement}; elsif #{atom}; #{statement}; end"
    else "p(#{atom}) until #{pick('true', '!nil', '1')}"
    end
  end

  def counted_loop
    counter = "i#{@counters += 1}"
    @loops += 1
    "#{counter} = 0; while #{counter} < #{1 + any(3)}; #{counter} += 1; #{several(2)}; end"
  ensure
    @loops -= 1
  end

  # A loop that only assigns to local variables: its rounds need no frames as long as the values are integers.
  def assigning_loop
    counter = "i#{@counters += 1}"
    round = [*Array.new(1 + any(3)) { assignment }, "#{counter} #{pick('+= 1', "= #{counter} + 1")}"]
    "#{counter} = 0; #{pick("while #{counter} <", "until #{counter} >=")} #{1 + any(6)}; #{round.join('; ')}; end; p(#{pick(*NAMES)})"
  end

  # Short methods, one that gives its block integers, and one that calls itself: what calls them needs no frames as long as the values are
  # integers.
  def short_methods
    early, earlier = Array.new(2) { likely?(0.4) ? "return #{pick('x', any(4))} if x #{pick('<', '>', '==')} #{any(4)}; " : "" }
    ["def s0(x); i = 0; while i < x; i += 1; yield i; end; i; end", "def s1(x); #{early}x #{pick('+', '-', '*', '/', '<')} #{any(4)}; end",
     "def s2(x, y); #{earlier}x #{pick('+', '-')} y #{pick('+', '*', '%')} #{pick('x', any(4))}; end", calling_itself,
     "def s4(x, y); #{pick('x', 'y')} #{pick('+', '-')} #{pick('x', 'y')} #{pick('*', '-', '%')} #{any(3)} #{pick('+', '-', '<')} y; end"]
  end

  # A method that calls itself until its first statement ends it.
  def calling_itself
    value = pick("x", "x", any(4), "nil", ":k", "x * 2", "[x]")
    if likely?(0.3)
      "def s3(x); x < #{any(4)} ? #{value} : s3(x > 60 ? 0 : x - 1) #{pick('+', '-', '*')} #{pick('x', any(4))}; end"
    else
      ends = pick("return #{value} if x < #{any(4)}", "return #{value} unless x > #{any(4)}", "if x < #{any(4)}; return #{value}; end")
      "def s3(x); #{ends}; return 0 if x > 18; s3(x - 1) #{pick('+', '-', '*')} #{pick('x', 's3(x - 2)', any(4))}; end"
    end
  end

  # Turns of a block that only assigns to a variable outside of it, behind what may end them.
  def assigning_turns
    turns = pick("#{any(5)}.times", "#{any(3)}.upto(4)", "[1, 2, 3].each", "[4, nil, 5].each", "s0(#{any(5)})")
    leaves = pick("break", "next", "break x", "break #{pick(*NAMES)}", "break #{any(9)}", "break x * 2")
    ends = likely?(0.5) ? "#{leaves} #{pick('if', 'unless')} x #{pick('<', '>', '==')} #{any(4)}; " : ""
    "#{pick('', '', 'p ')}#{turns} { |x| #{ends}#{pick(*NAMES)} #{pick("= #{pick(*NAMES)} #{pick('+', '-', '*')} x", "#{pick('+', '-')}= x", '= x')} }; p(#{pick(*NAMES)})"
  end

  def assignment
    left, right, last = Array.new(3) { likely?(0.8) ? pick(*NAMES, any(9)) : atom }
    first, second = Array.new(2) { pick('+', '-', '/', '%', '<', '==') }
    set = pick("= #{left}", "= #{left} #{first} #{right}", "= #{left} #{first} #{right} #{second} #{last}", "#{pick('+', '-', '%')}= #{left}",
               "= s1(#{left})", "= s2(#{left}, #{right}) #{first} #{last}", "= s3(#{left})", "= s4(#{left}, #{right})")
    likely?(0.3) ? "begin; #{pick(*NAMES)} #{set}; rescue#{pick('', ' TypeError')} => e; p e.class; end" : "#{pick(*NAMES)} #{set}"
  end

  def guarded
    parts = ["begin; #{several(2)}; "]
    if likely?(0.7)
      parts << "rescue#{pick(*WRONG, *@classes.map { |name, *| " #{name}" })} => e; p [e.class, e.message]; #{statement}; "
      parts << "else; #{statement}; " if likely?(0.3)
    end
    parts << "ensure; #{statement}; " if likely?(0.5)
    parts.join + "end"
  end
end

# What a command leaves of a script: its output, its error line and whether it refused the script.
Left = Struct.new(:output, :told, :refused)

PROFILE = File.expand_path("profile.rb", __dir__)
FLAGS = %w[-W0 --disable-gems --disable-error_highlight --disable-did_you_mean].freeze

def ours(program, file)
  output, told, status = Open3.capture3(program, "run", file)
  Left.new(output, told.strip, status.exitstatus == 3)
end

# Nothing where it does not come to an end in ten seconds, or where CRuby's own compiler fails at what it has read.
def theirs(file)
  return Left.new("", "", true) unless system(RbConfig.ruby, *FLAGS, "-c", file, out: File::NULL, err: File::NULL)
  output, told, status = Open3.capture3({ "STRICT" => "1" }, "timeout", "-s", "KILL", "10", RbConfig.ruby, *FLAGS, PROFILE, file)
  return if status.exitstatus == 137 || status.signaled? || told.include?("argument stack underflow")
  Left.new(output, told.strip, false)
end

def same?(left, right) = left.refused == right.refused && (left.refused || (left.output == right.output && left.told == right.told))

program, first, count = ARGV
counts = Hash.new(0)
Tempfile.create(["chance", ".rb"]) do |file|
  first.to_i.upto(first.to_i + (count || 200).to_i - 1) do |number|
    File.write(file.path, Script.new(number).text)
    left = ours(program, file.path)
    if left.output.include?("not here yet") || left.told.include?("not here yet")
      counts[:passed_over] += 1
      next
    end
    right = theirs(file.path)
    if right.nil?
      counts[:passed_over] += 1
      next
    end
    counts[left.refused ? :refused : :run] += 1
    next if same?(left, right)
    counts[:differ] += 1
    puts "#{number}:", "  ours   #{left.told.inspect} #{left.output.inspect}", "  CRuby  #{right.told.inspect} #{right.output.inspect}"
  end
end
puts %i[run refused passed_over differ].map { |name| "#{counts[name]} #{name}" }.join(", ")
