-- SYNTAX TEST "Lua.sublime-syntax"

-- a comment 'with "quotes
-- <-- comment.line.double-dash punctuation.definition.comment
--           ^^^^^^^^^^^^^ comment.line - string
--- documentation @param x it's
--  ^^^^^^^^^^^^^ comment.line.documentation
--                ^^^^^^ keyword.other.documentation
--[[ block
still "block ]] local x = 1
-- <------------ comment.block - string
--           ^^ punctuation.definition.comment.end
--              ^^^^^ storage.modifier
--                      ^ keyword.operator.assignment
--                        ^ constant.numeric.integer
--[==[ a ]] b
]==] y = 2
-- <---- comment.block
--       ^ constant.numeric - comment
local s = "a\n\x41\065\u{7F} %d %5.2f%%" .. 'it\'s -- no'
--        ^^ string.quoted.double
--          ^^ constant.character.escape
--            ^^^^ constant.character.escape
--                ^^^^ constant.character.escape
--                    ^^^^^^ constant.character.escape
--                           ^^ constant.other.placeholder
--                              ^^^^^ constant.other.placeholder
--                                       ^^ keyword.operator.concatenation
--                                          ^^^ string.quoted.single
--                                             ^^ constant.character.escape
--                                                 ^^^^^ string.quoted.single - comment
local l = [=[ raw \n ]] "
--        ^^^ string.quoted.multiline punctuation.definition.string.begin
--            ^^^^^^^^^ string.quoted.multiline - constant
]=] .. x
-- <--- punctuation.definition.string.end
--  ^^ keyword.operator
local u = "unclosed
--                 ^ invalid.illegal
v = 1
--^ keyword.operator - string
n = {0xFF, 0x1p4, 1e-3, .5, 3.14, 10, 7ULL, 1..2}
--  ^ punctuation.section.block.begin
--   ^^^^ constant.numeric.integer.hexadecimal
--         ^^^^^ constant.numeric
--                ^^^^ constant.numeric.float
--                      ^^ constant.numeric.float
--                          ^^^^ constant.numeric.float
--                                ^^ constant.numeric.integer.decimal
--                                    ^^^^ constant.numeric.integer
--                                              ^ punctuation.section.block.end
local function add(a, b, ...) return a + b end
-- <----- storage.modifier
--    ^^^^^^^^ storage.type.function keyword.declaration
--             ^^^ entity.name.function
--                ^ punctuation.section.parameters.begin
--                 ^^ meta.function.parameters
--                  ^ punctuation.separator
--                       ^^^ variable.parameter
--                            ^^^^^^ keyword.control.flow
--                                     ^ keyword.operator.arithmetic
--                                         ^^^ keyword.control
function M.sub:name(q) self.x = q end
--       ^ variable.other
--        ^ punctuation.accessor
--         ^^^ variable.other
--            ^ punctuation.accessor
--             ^^^^ entity.name.function
--                  ^ variable.parameter
--                     ^^^^ variable.language
--                         ^ punctuation.accessor
--                          ^ variable.other.member
M.f = function(z) end
--^ entity.name.function
--    ^^^^^^^^ storage.type.function
--             ^ variable.parameter
if x == nil and not y or z ~= true then print("hi") elseif #t >= 2 then else end
-- <-- keyword.control.conditional
--   ^^ keyword.operator.comparison
--      ^^^ constant.language.null
--          ^^^ keyword.operator.word
--              ^^^ keyword.operator.word
--                         ^^ keyword.operator.comparison
--                            ^^^^ constant.language.boolean
--                                 ^^^^ keyword.control.conditional
--                                      ^^^^^ support.function.builtin
--                                                  ^^^^^^ keyword.control.conditional
--                                                         ^ keyword.operator.length
for i, v in ipairs(t) do goto continue ::continue:: end
-- <--- keyword.control.loop
--       ^^ keyword.control.loop
--          ^^^^^^ support.function.builtin
--                    ^^ keyword.control.loop
--                       ^^^^ keyword.control.flow
--                            ^^^^^^^^ variable.label
--                                     ^^ punctuation.definition.label
--                                       ^^^^^^^^^^ - keyword
--                            ^^^^^^^^ variable.label
while true do break end repeat until x
-- <----- keyword.control.loop
--            ^^^^^ keyword.control.flow
--                      ^^^^^^ keyword.control.loop
local t = {a = 1, ["b"] = 2; c = function() end, __index = M, 3 // 2, ~x}
--        ^^ meta.mapping
--           ^ keyword.operator.assignment
--         ^^^ meta.mapping
--                 ^^^ string.quoted.double
--                         ^ punctuation.separator
--                           ^ entity.name.function
--                                               ^^^^^^^ support.function.metamethod
--                                                              ^^ keyword.operator.arithmetic
--                                                                    ^ keyword.operator.bitwise
string.format("%s", x):upper() foo.bar{1} require "x" t.end_ = MAX_N
-- <------ support.constant
--     ^^^^^^ support.function
--             ^^ constant.other.placeholder
--                     ^^^^^ variable.function
--                                 ^^^ variable.function
--                                        ^^^^^^^ support.function.builtin
--                                                             ^^^^^ constant.other
local c <const> = 5; local f <close> = g(x)[1]
--       ^^^^^ storage.modifier
--                 ^ punctuation.terminator
--                            ^^^^^ storage.modifier
--                                     ^ variable.function
--                                         ^ punctuation.section.brackets.begin
