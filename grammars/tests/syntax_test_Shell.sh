# SYNTAX TEST "Shell.sublime-syntax"

# a comment with "quotes' and $vars
# <- comment.line.number-sign punctuation.definition.comment
#                ^^^^^^^^^^^^^^^^^^ comment.line - string - variable
echo a#b # c
# <---- support.function.builtin
#     ^^ - comment
#        ^^^ comment.line
x=1 y="two $x ${z:-def}" ./run.sh -v --long=3 arg
# <- variable.other.readwrite
#^ keyword.operator.assignment
# ^ constant.numeric.integer
#   ^ variable.other.readwrite
#     ^^^^^ string.quoted.double
#          ^^ string.quoted.double variable.other.readwrite
#             ^^ meta.interpolation punctuation.section.interpolation.begin
#               ^ variable.other.readwrite
#                ^^ keyword.operator.expansion
#                     ^ punctuation.section.interpolation.end
#                      ^ punctuation.definition.string.end
#                        ^^^^^^^^ variable.function
#                                 ^^ variable.parameter.option
#                                    ^^^^^^ variable.parameter.option
arr=(a "b" 'c' $d [3]=e) arr[1]+=f n+=2
# <--- variable.other.readwrite
#   ^ punctuation.section.array.begin
#      ^^^ string.quoted.double
#          ^^^ string.quoted.single
#               ^ variable.other.readwrite
#                 ^ punctuation.section.brackets
#                  ^ constant.numeric
#                      ^ punctuation.section.array.end
#                        ^^^ variable.other.readwrite
#                              ^^ keyword.operator.assignment
#                                  ^ variable.other.readwrite
if [ -f "$1" ] && ! grep -q 'it''s' file; then
# <-- keyword.control.conditional
#  ^ support.function.test
#    ^^ keyword.operator.test
#        ^^ string.quoted.double variable.language
#            ^ support.function.test
#              ^^ keyword.operator.logical
#                 ^ keyword.operator.logical
#                   ^^^^ variable.function
#                        ^^ variable.parameter.option
#                           ^^^^ string.quoted.single
#                                       ^ punctuation.terminator
#                                         ^^^^ keyword.control.conditional
elif [[ $a == b* && $c =~ ^[a-z]+(x|y)$ || -n ${d} ]]; then echo if then; fi
# <---- keyword.control.conditional
#    ^^ support.function.double-brackets
#          ^^ keyword.operator.comparison
#              ^ keyword.operator
#                      ^^ keyword.operator.comparison
#                         ^ string.regexp
#                          ^^^^^ string.regexp constant.other.character-class
#                                       ^^ keyword.operator.logical - string
#                                          ^^ keyword.operator.test
#                                                  ^^ support.function.double-brackets
#                                                                ^^ - keyword
#                                                                         ^^ keyword.control.conditional
for f in *.txt "$@"; do cat $f | wc -l >> out 2>&1 & done < <(ls)
# <--- keyword.control.loop
#   ^ variable.other.loop
#     ^^ keyword.control
#                    ^^ keyword.control.loop
#                       ^^^ variable.function
#                              ^ keyword.operator.pipe
#                                      ^^ keyword.operator.redirection
#                                             ^ constant.numeric
#                                              ^^ keyword.operator.redirection
#                                               ^ keyword.operator
#                                                    ^^^^ keyword.control.loop
#                                                             ^^ meta.interpolation variable.function
for ((i = 0; i < 10; i++)); do :; done
# <--- keyword.control.loop
#   ^^ punctuation.section.arithmetic.begin
#     ^ variable.other
#         ^ constant.numeric
#              ^ keyword.operator.comparison
#                     ^^ keyword.operator.arithmetic
#                       ^^ punctuation.section.arithmetic.end
#                           ^^ keyword.control.loop
#                              ^ support.function.builtin
while read -r line; do continue; done
# <----- keyword.control.loop
#     ^^^^ support.function.builtin
#                      ^^^^^^^^ keyword.control.flow
case "$x" in
# <---- keyword.control.conditional
#         ^^ keyword.control
  (a|b*) echo "a)" ;;
# ^ keyword.control
#   ^ keyword.operator
#      ^ keyword.control
#        ^^^^ support.function.builtin
#             ^^^^ string.quoted.double
#                  ^^ punctuation.terminator.case
  [0-9]) case y in z) w;; esac ;&
# ^^^^^ constant.other.character-class
#        ^^^^ keyword.control.conditional
#                         ^^^^ keyword.control.conditional
#                              ^^ punctuation.terminator.case
  *) exit 1
#    ^^^^ keyword.control.flow
#         ^ constant.numeric
esac
# <---- keyword.control.conditional
my-func() { local a=$1 b; return 0; }
# <------- entity.name.function
#      ^ punctuation.section.parameters.begin
#         ^ punctuation.section.block.begin
#           ^^^^^ storage.modifier
#                   ^^ variable.language
#                      ^ variable.other.readwrite
#                         ^^^^^^ keyword.control.flow
#                                   ^ punctuation.section.block.end
function foo { export PATH=$PATH:~/bin; }
# <-------- storage.type.function keyword.declaration
#        ^^^ entity.name.function
#              ^^^^^^ storage.modifier
#                     ^^^^ variable.other.readwrite
#                                ^ variable.language
a=$(echo "$(date +%s)" `ls "a b"` $((1 + x * 0xF)))
# ^^ punctuation.section.interpolation.begin
#   ^^^^ meta.interpolation support.function.builtin
#        ^ string.quoted.double
#           ^^^^ meta.interpolation variable.function - string
#                    ^ punctuation.definition.string.end
#                      ^ punctuation.section.interpolation.begin
#                       ^^ variable.function
#                               ^ punctuation.section.interpolation.end
#                                 ^^^ punctuation.section.arithmetic.begin
#                                            ^^^ constant.numeric.integer.hexadecimal
#                                               ^^ punctuation.section.arithmetic.end
b=$'tab\t\x41' c=a\ b d=${#arr[@]} e=${x//a\/b/"c"} f=${!p} g=${v%%.*} h=${s:1:2}
#      ^^ string.quoted.single constant.character.escape
#        ^^^^ constant.character.escape
#              ^ variable.other.readwrite
#                 ^^ constant.character.escape
#                         ^ keyword.operator - comment
#                          ^^^ variable.other
#                              ^ variable.language
#                                       ^^ keyword.operator
#                                          ^^ constant.character.escape
#                                              ^^^ string.quoted.double
#                                                       ^ keyword.operator
#                                                                ^^ keyword.operator
#                                                                   ^ keyword.operator
#                                                                          ^ variable.other
#                                                                           ^ keyword.operator
cat <<EOF | sort > out # it's
#                      ^^^^^^ comment.line - string
#   ^^ keyword.operator.redirection.heredoc
#     ^^^ entity.name.tag.heredoc
#         ^ keyword.operator.pipe
#           ^^^^ variable.function - string
#                  ^^^ - string
#                ^ keyword.operator.redirection
text $var $(cmd) `cmd` \$no "no
# <---- string.unquoted.heredoc
#     ^^^ variable.other.readwrite
#           ^^^ variable.function - string
#                 ^^^ variable.function
#                      ^^ constant.character.escape
#                           ^^^ string.unquoted.heredoc - string.quoted
 EOF
#^^^ string.unquoted.heredoc - entity
EOF
# <--- entity.name.tag.heredoc
cat <<-'END'; echo x
#   ^^^ keyword.operator.redirection.heredoc
#       ^^^ entity.name.tag.heredoc
#             ^^^^ support.function.builtin
raw $var
# <-------- string.unquoted.heredoc - variable
	END
#^^^ entity.name.tag.heredoc
grep x <<< "$y" \
  -i {a,b}.{1..3} "multi
# ^^ variable.parameter.option
#      ^ punctuation.separator
#            ^^ keyword.operator.range
#                 ^^^^^^ string.quoted.double
line" # c
# <----- string.quoted.double
#     ^^^ comment
paste <<A - <<'B' | cat
#       ^ entity.name.tag.heredoc
#              ^ entity.name.tag.heredoc
#                   ^^^ variable.function - string
one $x
# <--- string.unquoted.heredoc
A
# <- entity.name.tag.heredoc
two $(y)
# <--- string.unquoted.heredoc
#     ^ variable.function - string
B
# <- entity.name.tag.heredoc
grep -v <<< a \
#       ^^^ keyword.operator.redirection.herestring
#             ^ punctuation.separator.continuation
alias ll='ls -l'
# <----- support.function.builtin
#     ^^ variable.other.readwrite
(cd /tmp && ls) || true
# <- punctuation.section.group.begin
#^^ support.function.builtin
#        ^^ keyword.operator.logical
#             ^ punctuation.section.group.end
#               ^^ keyword.operator.logical
#                  ^^^^ support.function.builtin
