# Compares the scripts of the worked examples with what CRuby makes of them.
#
#   ruby -W0 bench/rows_ruby.rb [NAME ..]
#
# Runs each row of the tables in crates/examples_program/src (all of them, or those of the files named) in a CRuby that
# bench/profile.rb has bent towards the language, and prints each row whose output or exception differs, and last the counts.
# It is no part of the gate: CRuby 3.1 has no limits and more methods than the language, so some rows differ rightly.

require "open3"
require "rbconfig"
require "tempfile"

FOLDER = File.expand_path("../crates/examples_program/src", __dir__)
FILES = ARGV.empty? ? %w[rows calls containers methods builtins assigning] : ARGV
FLAGS = %w[-W0 --disable-error_highlight --disable-did_you_mean].freeze
PROFILE = File.expand_path("profile.rb", __dir__)

# What `^` and a letter stand for in a row.
MEANT = { "n" => "\n", "r" => "\r", "t" => "\t", "m" => "\u{FEFF}", "e" => "\e", "p" => "|", "z" => "\x01", "d" => "\x7F" }.freeze

Row = Struct.new(:name, :script, :output, :told)

def field(text) = text.gsub(/\^(.)/m) { MEANT.fetch($1, "^") }

# The rows of a file: each table is one text, a row a line, of which those with four fields say what a script prints.
def rows(name)
  source = File.read("#{FOLDER}/#{name}.rt", encoding: "UTF-8")
  tables = source.scan(/: &str = "\\\n(.*?)";\n/m).map { |(table)| table.gsub(/\\(.)/m) { $1 == "n" ? "\n" : $1 } }
  found = tables.flat_map { |table| table.lines(chomp: true) }.map { |line| line.split("|", -1) }
  found.select { |fields| fields.size == 4 }.map { |fields| Row.new(fields[0], field(fields[1]), field(fields[2]), fields[3]) }
end

def run(script)
  Tempfile.create(["row", ".rb"]) do |file|
    file.write(script)
    file.flush
    output, told, = Open3.capture3(RbConfig.ruby, *FLAGS, PROFILE, file.path)
    [output.force_encoding("UTF-8"), told.force_encoding("UTF-8").chomp]
  end
end

compared = FILES.flat_map { |name| rows(name) }
differing = compared.reject do |row|
  output, told = run(row.script)
  same = output == row.output && told == row.told
  puts "#{row.name}: wanted #{row.output.inspect} #{row.told}, CRuby #{output.inspect} #{told}" unless same
  same
end
puts "#{compared.size} rows, #{differing.size} differ"
