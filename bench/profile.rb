# Runs a script in CRuby 3.1, bent towards the language: its texts, and most rules where the language is not CRuby's.
#
#   ruby -W0 --disable-error_highlight --disable-did_you_mean bench/profile.rb FILE
#
# A second opinion on what a script prints, for bench/rows_ruby.rb, and not the definition: it has no limits and no refusals of
# its own, keeps the methods that the language leaves out, and its moves are CRuby's.
Thread.report_on_exception = false
module PF
  MAX = 9223372036854775807
  MIN = -9223372036854775808
  def self.ck(v); (v > MAX || v < MIN) ? raise(RangeError, "integer out of 64 bits") : v; end
  def self.num(o); raise TypeError, "wrong type #{PF.cls(o)}" unless Integer === o; o; end
  def self.cls(o); Kernel.instance_method(:class).bind_call(o); end
  def self.txt(o, seen)
    case o
    when Array
      return "[...]" if seen.any? { |x| x.equal?(o) }
      seen.push(o); r = "[" + o.map { |x| txt(x, seen) }.join(", ") + "]"; seen.pop; r
    when Hash
      return "{...}" if seen.any? { |x| x.equal?(o) }
      return "{}" if o.length == 0
      seen.push(o); a = []
      o.each_pair { |k, v| a << (Symbol === k ? "#{k}: " : txt(k, seen) + " => ") + txt(v, seen) }
      seen.pop; "{" + a.join(", ") + "}"
    when String, Symbol, Integer, nil, true, false, Class then o.inspect
    when Exception then "#<#{PF.cls(o)}: #{o.message}>"
    when Ractor then "#<Ractor:##{o.no}>"
    else "#<#{PF.cls(o)}>"
    end
  end
  def self.puts_item(o, seen, out)
    if Array === o
      return out << "[...]\n" if seen.any? { |x| x.equal?(o) }
      return out << "\n" if o.length == 0
      seen.push(o); o.each { |x| puts_item(x, seen, out) }; seen.pop
    else
      s = PF.str(o); out << s; out << "\n" unless s.end_with?("\n")
    end
  end
  def self.str(o); s = o.to_s; String === s ? s : "#<#{PF.cls(o)}>"; end
  def self.key(k)
    case k
    when Integer, Symbol, String, true, false, nil, Class, Ractor then k
    else raise TypeError, "wrong type #{PF.cls(k)}"
    end
  end
  module Int
    def +(o) = PF.ck(super(PF.num(o)))
    def -(o) = PF.ck(super(PF.num(o)))
    def *(o) = PF.ck(super(PF.num(o)))
    def /(o) = PF.ck(super(PF.num(o)))
    def %(o) = super(PF.num(o))
    def -@ = PF.ck(super)
    def abs = PF.ck(super)
    def ==(o) = Integer === o && super
    %w[< <= > >=].each { |m| class_eval "def #{m}(o) = (Integer === o ? super : raise(ArgumentError, \"comparison of Integer with \#{PF.cls(o)} failed\"))" }
  end
  Integer.prepend Int
  module Str
    def +(o) = String === o ? super : raise(TypeError, "wrong type #{PF.cls(o)}")
    def <<(o) = String === o ? super : raise(TypeError, "wrong type #{PF.cls(o)}")
    def *(o) = Integer === o ? super : raise(TypeError, "wrong type #{PF.cls(o)}")
    %w[< <= > >=].each { |m| class_eval "def #{m}(o) = (String === o ? super : raise(ArgumentError, \"comparison of String with \#{PF.cls(o)} failed\"))" }
  end
  String.prepend Str
  module Arr
    def +(o) = Array === o ? super : raise(TypeError, "wrong type #{PF.cls(o)}")
    def []=(i, v)
      raise IndexError, "index out of range" if i < -length
      super
    end
    def sum = reduce(0) { |a, b| a + b }
    def sort = (all? { |x| Integer === x } || all? { |x| String === x }) ? super : raise(ArgumentError, "comparison failed")
    def inspect = PF.txt(self, [])
    def to_s = PF.txt(self, [])
    def join(sep = "") = map { |x| Array === x ? x.join(sep) : PF.str(x) }.reduce { |a, b| a + sep + b } || ""
  end
  Array.prepend Arr
  module Hsh
    def [](k) = super(PF.key(k))
    def []=(k, v); super(PF.key(k), v); end
    def key?(k) = super(PF.key(k))
    def delete(k) = super(PF.key(k))
    def inspect = PF.txt(self, [])
    def to_s = PF.txt(self, [])
    def each
      keys.each { |k| yield [k, self[k]] if key?(k) }
      self
    end
  end
  Hash.prepend Hsh
end
class Ractor
  alias pf_ins inspect
  def no = pf_ins[/#(\d+)/, 1]
  def inspect = "#<Ractor:##{no}>"
  def to_s = inspect
  alias pf_get []
  alias pf_set []=
  def pf_ck(k)
    raise RuntimeError, "storage of another ractor" unless equal?(Ractor.current)
    raise TypeError, "wrong type #{PF.cls(k)}" unless Symbol === k
  end
  def [](k); pf_ck(k); pf_get(k); end
  def []=(k, v); pf_ck(k); pf_set(k, v); end
  def self.[](k) = current[k]
  def self.[]=(k, v); current[k] = v; end
  def self.store_if_absent(k) = current[k].nil? ? (current[k] = yield(nil)) : current[k]
  def self.main? = current.equal?(main)
end
class Object; def inspect = "#<#{PF.cls(self)}>"; def to_s = "#<#{PF.cls(self)}>"; end
class << self; def inspect = "#<Object>"; def to_s = "#<Object>"; end
class Exception
  # A message that is no text counts as none.
  module PfText
    def initialize(*values, **named) = super(*(values.size == 1 && !(String === values[0]) ? [] : values), **named)
  end
  prepend PfText
  def inspect = "#<#{self.class}: #{message}>"
end
class NameError
  def pf_of(r)
    case r
    when nil then "nil"
    when true then "true"
    when false then "false"
    when Class then "class #{r}"
    else "an instance of #{PF.cls(r)}"
    end
  end
  def message
    m = super
    begin
      r = receiver
    rescue ::ArgumentError
      return m
    end
    if m.start_with?("uninitialized constant") then "uninitialized constant #{name}"
    elsif NoMethodError === self then "undefined method '#{name}' for #{pf_of(r)}"
    else "undefined local variable or method '#{name}'"
    end
  end
end
class FrozenError
  def message
    m = super
    begin
      "can't modify frozen #{PF.cls(receiver)}"
    rescue ::ArgumentError
      m
    end
  end
end
class LocalJumpError; def message = reason == :noreason ? "no block" : "jump"; end
class Ractor::MovedError; def message = "moved object"; end
class Ractor::ClosedError; def message = "port closed"; end
class Ractor::IsolationError
  def message
    m = super
    m =~ /constant (?:Object::)?(\w+)/ ? "constant #{$1} is not shareable" : m =~ /(\$\w+)/ ? "global #{$1}" : m
  end
end
module Kernel
  alias pf_raise raise
  def raise(*a)
    return pf_raise(RuntimeError, "unhandled exception") if a.empty? && $!.nil?
    pf_raise(*a)
  end
  def puts(*a)
    out = +""
    out << "\n" if a.empty?
    a.each { |x| PF.puts_item(x, [], out) }
    $stdout.write(out); nil
  end
  def print(*a); $stdout.write(a.map { |x| PF.str(x) }.join); nil; end
  def p(*a)
    a.each { |x| $stdout.write(((Array === x || Hash === x) ? PF.txt(x, []) : x.inspect) + "\n") }
    a.empty? ? nil : a.size == 1 ? a[0] : a
  end
end
src = File.binread(ARGV[0]).sub(/\A\xEF\xBB\xBF/n, "").force_encoding("UTF-8").gsub("\r\n", "\n")
magic = src[/\A(?:#.*\n)*?# frozen_string_literal: true\n/] ? "# frozen_string_literal: true\n" : ""
# Definitions at top level stand before the first statement runs: they are cut out by their places, in order.
defs = []; rest = src.dup
begin
  body = RubyVM::AbstractSyntaxTree.parse(src).children.last
  tops = body.nil? ? [] : body.type == :BLOCK ? body.children.compact : [body]
  starts = [0]; src.each_line { |l| starts << starts.last + l.bytesize }
  spans = tops.select { |n| n.type == :DEFN || n.type == :CLASS }.map do |n|
    [starts[n.first_lineno - 1] + n.first_column, starts[n.last_lineno - 1] + n.last_column]
  end
  defs = spans.map { |a, b| src.byteslice(a, b - a) + "\n" }
  cut = src.b
  spans.reverse_each { |a, b| cut[a, b - a] = cut[a, b - a].gsub(/[^\n]/n, " ").sub(/\A /n, ";") }
  rest = cut.force_encoding("UTF-8")
rescue SyntaxError
end
require "tempfile"
t = Tempfile.new(["pf", ".rb"]); t.write(magic + "public\n" + defs.join + rest); t.flush
program = RubyVM::InstructionSequence.compile_file(t.path)
load File.expand_path("strict.rb", __dir__) if ENV["STRICT"]
begin
  program.eval
rescue SystemExit
  pf_raise
rescue Exception => e
  $stdout.flush
  STDERR.write("#{e.message} (#{PF.cls(e)})\n")
  exit! 1
end
