# SYNTAX TEST "Python.sublime-syntax"

# a "comment" with 'quotes
# <- comment.line.number-sign punctuation.definition.comment
#       ^^^^^^^^^^^^^^^^^^^^ comment.line - string

"""A docstring with "quotes" and
# <- comment.block.documentation
   >>> f(1)
#  ^^^ keyword.other.prompt
"""
# <- comment.block.documentation punctuation.definition.comment.end
x = 1
# <- meta.generic-name - comment
# ^ keyword.operator.assignment
#   ^ constant.numeric.integer.decimal

import os.path as p
# <- keyword.control.import
#              ^^ keyword.control.flow
from . import (a, b as c)
# <- keyword.control.import
#      ^^^^^^ keyword.control.import

@app.route("/x", methods=["GET"])
# <- meta.annotation punctuation.definition.annotation
#^^^ variable.annotation
#   ^ punctuation.accessor
#          ^^^^ string.quoted.double
#                ^^^^^^^ variable.parameter
async def fetch[T](self, a: int = 0, *args: str, key=lambda x, y=2: x + y, **kw) -> dict[str, int]:
# <- storage.modifier.async
#     ^^^ storage.type.function keyword.declaration.function
#         ^^^^^ entity.name.function
#               ^ meta.generic variable.parameter
#                  ^^^^ variable.language
#                        ^ variable.parameter
#                           ^^^ support.type
#                                 ^ constant.numeric
#                                    ^ keyword.operator
#                                     ^^^^ variable.parameter
#                                                    ^^^^^^ storage.type.function
#                                                           ^ variable.parameter
#                                                              ^ variable.parameter
#                                                                 ^ punctuation.section.function.begin
#                                                                        ^ punctuation.separator.parameters
#                                                                            ^^ variable.parameter
#                                                                                   ^^^^ support.type
#                                                                                                 ^ punctuation.section.function.begin
    '''doc's'''
#   ^^^^^^^^^^^ comment.block.documentation
    return await self.get(x, key=3) if x is not None else False
#   ^^^^^^ keyword.control.flow
#          ^^^^^ keyword.control
#                ^^^^ variable.language
#                    ^ punctuation.accessor
#                     ^^^ variable.function
#                        ^ punctuation.section.arguments.begin
#                            ^^^ variable.parameter
#                                 ^ punctuation.section.arguments.end
#                                   ^^ keyword.control.conditional
#                                        ^^^^^^ keyword.operator.word
#                                               ^^^^ constant.language
#                                                         ^^^^^ constant.language.boolean
def __init__(self):
#   ^^^^^^^^ entity.name.function support.function.magic
    pass
#   ^^^^ keyword.control.flow

class Foo(Base, metaclass=Meta, x=1):
# <- storage.type.class
#     ^^^ entity.name.class
#         ^^^^ entity.other.inherited-class
#               ^^^^^^^^^ variable.parameter
    X: Final = "a\n\x41\u00e9\N{DASH} %s %(name)d {0!r:>10} {}"
#   ^ meta.generic-name
#              ^^^ string.quoted.double
#                ^^ constant.character.escape
#                  ^^^^ constant.character.escape
#                      ^^^^^^ constant.character.escape.unicode
#                            ^^^^^^^^ constant.character.escape.unicode
#                                     ^^ constant.other.placeholder
#                                        ^^^^^^^^ constant.other.placeholder
#                                                 ^^^^^^^^^ constant.other.placeholder
#                                                           ^^ constant.other.placeholder
s = f"a {x!r:>{width}} {{no}} {d['k']} {y=} {f(1, k='z')}" + 'plain'
#   ^ storage.type.string
#    ^ punctuation.definition.string.begin
#       ^ punctuation.section.interpolation.begin
#        ^ meta.interpolation meta.generic-name - string
#         ^^ storage.modifier
#           ^ punctuation.separator
#            ^ constant.other.format-spec
#             ^ punctuation.section.interpolation.begin
#              ^^^^^ meta.interpolation meta.interpolation meta.generic-name
#                    ^ punctuation.section.interpolation.end
#                      ^^ constant.character.escape
#                                ^^^ meta.interpolation string.quoted.single
#                                    ^ punctuation.section.interpolation.end
#                                        ^ keyword.operator.assignment
#                                            ^ variable.function
#                                                    ^ string.quoted.single
#                                                        ^ punctuation.definition.string.end
#                                                          ^ keyword.operator.arithmetic
#                                                            ^^^^^^^ string.quoted.single
r = r'\d+\'' + rb"\x" + b'\x41' + f'''{
#   ^ storage.type.string
#    ^^^^^^^ string.quoted.single.raw
#                 ^^ string.quoted.double.raw - constant.character.escape
#                         ^^^^ constant.character.escape
    x}''' + "# no comment"
#   ^ meta.interpolation meta.generic-name
#           ^^^^^^^^^^^^^^ string - comment
u = 'unclosed
#            ^ invalid.illegal.unclosed-string
v = 1
# <- meta.generic-name - string
w = 'a\
  b'
# ^ string.quoted.single
n = [0xFF_FF, 0o17, 0b1_0, 1_000, 1.5e-3, .5, 1e5, 2j, 3.14J, 5.]
#    ^^^^^^^ constant.numeric.integer.hexadecimal
#             ^^^^ constant.numeric.integer.octal
#                   ^^^^^ constant.numeric.integer.binary
#                          ^^^^^ constant.numeric.integer.decimal
#                                 ^^^^^^ constant.numeric.float
#                                         ^^ constant.numeric.float
#                                             ^^^ constant.numeric.float
#                                                  ^^ constant.numeric.complex
#                                                      ^^^^^ constant.numeric.float
#                                                             ^^ constant.numeric.float
#                                                               ^ punctuation.section.brackets.end
if (m := len(a)) >= 10 and not b[1:2] or c not in d:
# <- keyword.control.conditional
#  ^ punctuation.section.group.begin
#     ^^ keyword.operator.assignment
#        ^^^ support.function.builtin
#                ^^ keyword.operator.comparison
#                      ^^^ keyword.operator.word
#                                 ^ punctuation.separator.slice
#                                          ^^^^^^ keyword.operator.word
match command.split():
# <- keyword.control.conditional
    case ["go", {"x": y}] if y > MAX_SIZE:
#   ^^^^ keyword.control.conditional
#                   ^ punctuation.separator.mapping
#                         ^^ keyword.control.conditional
#                                ^^^^^^^^ constant.other
match = re.match(r"x", y)
# <- meta.generic-name - keyword
#          ^^^^^ variable.function - keyword
type = 3
# <- support.type - keyword
type Vec[T] = list[T]
# <- storage.type
#    ^^^ entity.name.type
for i, _ in enumerate(x): print(i, end=''); continue
# <- keyword.control.loop
#        ^^ keyword.operator.word
#           ^^^^^^^^^ support.function.builtin
#                         ^^^^^ support.function.builtin
#                                  ^^^ variable.parameter
#                                         ^ punctuation.terminator
#                                           ^^^^^^^^ keyword.control.loop
try: raise ValueError("x") from e
# <- keyword.control
#    ^^^^^ keyword.control
#          ^^^^^^^^^^ support.class.exception
#                          ^^^^ keyword.control.flow
except* (A, B) as e:
# <- keyword.control
    yield from (a async for a in b() if a)
#   ^^^^^ keyword.control.flow
#         ^^^^ keyword.control.flow
#                 ^^^^^ keyword.control.loop
#                       ^^^ keyword.control.loop
#                                    ^^ keyword.control.conditional
a.class_.MAX @ b ** c // d; x: int = ...
#^ punctuation.accessor
#        ^^^ constant.other
#            ^ keyword.operator.arithmetic
#                ^^ keyword.operator.arithmetic
#                              ^^^ support.type
#                                    ^^^ constant.language
global z; del z
# <- storage.modifier
#         ^^^ keyword.control
f(
"""not a docstring"""
# <- string.quoted.triple - comment
)
# <- punctuation.section.arguments.end
x = f(1, [2, {3
def g(a, b=(
# <- storage.type.function
#   ^ entity.name.function
    return 1
#   ^^^^^^ keyword.control.flow
