# SYNTAX TEST "Ruby.sublime-syntax"

# a comment "with 'quotes
# <- comment.line.number-sign punctuation.definition.comment
#           ^^^^^^^^^^^^^ comment - string
=begin
# <------ comment.block
it's block
# <---- comment.block - string
=end
# <---- comment.block
require 'json'
# <------- keyword.control.import
#       ^^^^^^ string.quoted.single
module Foo::Bar
# <------ storage.type.namespace keyword.declaration
#      ^^^^^ support.other.namespace
#           ^^^ entity.name.namespace
class User < Base::Model; end
# <----- storage.type.class keyword.declaration
#     ^^^^ entity.name.class
#          ^ punctuation.separator.inheritance
#            ^^^^^^^^^^^ entity.other.inherited-class
class << self
# <----- storage.type.class
#     ^^ keyword.operator
#        ^^^^ variable.language
  attr_reader :name, :age?
# ^^^^^^^^^^^ support.function
#             ^^^^^ constant.other.symbol
#                    ^^^^^ constant.other.symbol
  private
# ^^^^^^^ storage.modifier
  def self.create!(name, *args, key: 1, opt = {a: 2}, **kw, &blk)
# ^^^ storage.type.function keyword.declaration
#     ^^^^ variable.language
#         ^ punctuation.accessor
#          ^^^^^^^ entity.name.function
#                 ^ punctuation.section.parameters.begin
#                  ^^^^ variable.parameter
#                        ^ keyword.operator
#                         ^^^^ variable.parameter
#                               ^^^ variable.parameter
#                                    ^ constant.numeric
#                                       ^^^ variable.parameter
#                                              ^ constant.other.symbol
#                                                     ^^ keyword.operator
#                                                       ^^ variable.parameter
#                                                           ^ keyword.operator
#                                                            ^^^ variable.parameter
#                                                               ^ punctuation.section.parameters.end
  def ==(other) = @x == other.x
#     ^^ entity.name.function
#        ^^^^^ variable.parameter
#               ^ keyword.operator.assignment
#                 ^^ variable.other.readwrite.instance
#                    ^^ keyword.operator.comparison
#                             ^ variable.function
  def name=(v)
#     ^^^^^ entity.name.function
#           ^ variable.parameter
  def run a, b
#     ^^^ entity.name.function
#         ^ variable.parameter
#            ^ variable.parameter
    if x.class == String && !y.nil? then return nil unless z or true end
#   ^^ keyword.control.conditional
#        ^^^^^ variable.function - keyword
#              ^^ keyword.operator.comparison
#                 ^^^^^^ support.class
#                        ^^ keyword.operator.logical
#                              ^^^^ variable.function
#                                   ^^^^ keyword.control.conditional
#                                        ^^^^^^ keyword.control.flow
#                                               ^^^ constant.language.null
#                                                   ^^^^^^ keyword.control.conditional
#                                                            ^^ keyword.operator.word
#                                                               ^^^^ constant.language.boolean
#                                                                    ^^^ keyword.control
s = "a\n#{x + "b#{@y}" + h[:k]} \u{1F} %d #@iv #$g" + 'plain #{x} \' \n'
#   ^^ string.quoted.double
#     ^^ constant.character.escape
#       ^^ meta.interpolation punctuation.section.interpolation.begin
#           ^ meta.interpolation keyword.operator - string
#             ^^ meta.interpolation string.quoted.double
#                 ^^ variable.other.readwrite.instance
#                          ^^ meta.interpolation constant.other.symbol
#                             ^ punctuation.section.interpolation.end
#                               ^^^^^^ constant.character.escape
#                                      ^^ constant.other.placeholder
#                                          ^^^ string variable.other.readwrite.instance
#                                               ^^ variable.other.readwrite.global
#                                                     ^^^^^^^^^^^ string.quoted.single - meta.interpolation
#                                                                 ^^ constant.character.escape
h = { a: 1, 'b' => 2, "c": 3, d?: nil, :"e f" => :+, if: 1 }
#   ^ punctuation.section.block.begin
#     ^ constant.other.symbol.hash-key
#           ^^^ string.quoted.single
#               ^^ punctuation.separator.key-value
#                                 ^^^ constant.language
#                                      ^^^^^^ constant.other.symbol
#                                                ^^ constant.other.symbol
#                                                    ^^ constant.other.symbol.hash-key - keyword
n = [0xFF, 0b1_0, 0o17, 1_000, 1.5e-3, 3r, 2i, 1..10, x / 2, y/z]
#    ^^^^ constant.numeric.integer.hexadecimal
#          ^^^^^ constant.numeric.integer.binary
#                 ^^^^ constant.numeric.integer.octal
#                       ^^^^^ constant.numeric.integer.decimal
#                              ^^^^^^ constant.numeric.float
#                                      ^^ constant.numeric
#                                               ^^ keyword.operator.range
#                                                 ^^ constant.numeric
#                                                       ^ keyword.operator.arithmetic - string
#                                                             ^ keyword.operator.arithmetic - string
r = /ab[^\/"]+(?<n>\d{2})#{x}$/ix =~ s
#   ^ string.regexp punctuation.definition.string.begin
#      ^^ constant.other.character-class
#        ^^ constant.character.escape
#             ^^^^^ punctuation.section.group
#                  ^^ constant.character.escape
#                    ^^^ keyword.operator
#                        ^^ punctuation.section.interpolation.begin
#                              ^^ keyword.other.flag
#                                 ^^ keyword.operator.comparison
if /x"/.match(s) || s.scan(/'/) then puts /y/ end
#  ^^^^ string.regexp
#       ^^^^^ variable.function
#                          ^^^ string.regexp
#                               ^^^^ keyword.control
#                                         ^^^ string.regexp
w = %w[a 'b [c]] + %i(d e) + %q{it's {x}} + %Q(a #{b} (c)) + %r{a/b{2}}i + %(x) + %|y"|
#   ^^^ punctuation.definition.string.begin
#        ^^^^^^ string.quoted.other
#                ^ keyword.operator - string
#                     ^^^ string.quoted.other
#                               ^^^^^^^^ string.quoted.other.raw
#                                                ^^ punctuation.section.interpolation.begin
#                                                     ^^^ string.quoted.other
#                                                               ^^^ string.regexp
#                                                                  ^^^ string.regexp
#                                                                        ^ keyword.operator - string
#                                                                            ^ string.quoted.other
#                                                                                   ^^ string.quoted.other
m = 10 % 3 % (x)
#      ^ keyword.operator.arithmetic - string
#        ^ constant.numeric
#          ^ keyword.operator.arithmetic - string
t = <<~SQL.strip + x
#   ^^^ keyword.operator.heredoc
#      ^^^ entity.name.tag.heredoc
#          ^^^^^ variable.function - string
  it's #{name} \n "
# ^^^^ string.unquoted.heredoc - string.quoted
#      ^^ punctuation.section.interpolation.begin
#              ^^ constant.character.escape
  SQL
# ^^^ entity.name.tag.heredoc
u = foo(<<-'EOS', 1) # it's
#                    ^^^^^^ comment.line - string
#       ^^^ keyword.operator.heredoc
#           ^^^ entity.name.tag.heredoc
#                 ^ constant.numeric
raw #{x}
# <-------- string.unquoted.heredoc.raw - meta.interpolation
EOS
# <--- entity.name.tag.heredoc
two(<<~ONE, <<~TWO, x)
#      ^^^ entity.name.tag.heredoc
#              ^^^ entity.name.tag.heredoc
#                   ^ - string
  one #{a}
# ^^^ string.unquoted.heredoc
#       ^ meta.interpolation - string
ONE
# <--- entity.name.tag.heredoc
  two #{b}
# ^^^ string.unquoted.heredoc
#       ^ meta.interpolation - string
TWO
# <--- entity.name.tag.heredoc
a << 1; b<<C; c = ?a; d = x ? y : z
# ^^ keyword.operator.bitwise
#    ^ constant.numeric
#        ^^ keyword.operator.bitwise
#                 ^^ constant.character
#                           ^ keyword.operator.ternary
#                               ^ keyword.operator.ternary
[1].each_with_index do |v, (i, j), k = 1|
#   ^^^^^^^^^^^^^^^ variable.function
#                   ^^ keyword.control
#                      ^ punctuation.definition.parameters
#                       ^ variable.parameter
#                           ^ variable.parameter
#                                  ^ variable.parameter
#                                      ^ constant.numeric
  x&.map { |e| e.to_s }.map(&:to_i) || y
#  ^^ punctuation.accessor
#    ^^^ variable.function
#          ^ punctuation.definition.parameters
#           ^ variable.parameter
#                ^^^^ variable.function
#                            ^^^^^ constant.other.symbol
#                                   ^^ keyword.operator.logical
end
begin; raise ArgumentError, "x"; rescue => e; ensure; retry; end while false
# <----- keyword.control
#      ^^^^^ keyword.control
#            ^^^^^^^^^^^^^ support.class
#                                ^^^^^^ keyword.control
#                                             ^^^^^^ keyword.control
#                                                     ^^^^^ keyword.control.loop
#                                                                ^^^^^ keyword.control.loop
#                                                                      ^^^^^ constant.language
case x when 1, :a then yield self else super end
# <---- keyword.control.conditional
#      ^^^^ keyword.control.conditional
#                      ^^^^^ keyword.control.flow
#                            ^^^^ variable.language
#                                 ^^^^ keyword.control.conditional
#                                      ^^^^^ variable.language
f = ->(x, y = 2) { x } ; g = lambda { |z| z }; MAX_N = 3; @@c = $stdout; `ls #{d}`
#   ^^ storage.type.function
#      ^ variable.parameter
#         ^ variable.parameter
#                            ^^^^^^ support.function
#                                      ^ variable.parameter
#                                              ^^^^^ constant.other
#                                                         ^^^ variable.other.readwrite.class
#                                                               ^^^^^^^ variable.language
#                                                                        ^^^ string.interpolated
#                                                                              ^ meta.interpolation
defined?(x) and __FILE__ == $0; obj.end; Foo::BAR.new; Foo.baz!
# <-------- keyword.operator.word
#           ^^^ keyword.operator.word
#               ^^^^^^^^ constant.language
#                           ^^ variable.language
#                                   ^^^ variable.function - keyword
#                                        ^^^ support.class
#                                           ^^ punctuation.accessor
#                                                 ^^^ variable.function
#                                                          ^^^^ variable.function
