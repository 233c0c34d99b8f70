# SYNTAX TEST "Makefile.sublime-syntax"

# a comment: with $(VAR) and "quotes
# <- comment.line.number-sign punctuation.definition.comment
#                 ^^^^^^ comment.line - variable
CC := gcc # cc
# <-- variable.other
#  ^^ keyword.operator.assignment
#     ^^^ string.unquoted
#         ^^^^ comment.line
CFLAGS += -O2 $(shell pkg-config --cflags x) ${LIBS} $X \# no $$ % http://x
# <------ variable.other
#      ^^ keyword.operator.assignment
#         ^^^ string.unquoted
#             ^^ punctuation.section.interpolation.begin
#               ^^^^^ support.function
#                                          ^ punctuation.section.interpolation.end
#                                            ^^ punctuation.section.interpolation.begin
#                                              ^^^^ variable.other
#                                                  ^ punctuation.section.interpolation.end
#                                                    ^^ variable.other
#                                                       ^^ constant.character.escape
#                                                         ^^^ string.unquoted - comment
#                                                             ^^ constant.character.escape
#                                                                ^ variable.language
export PATH ?= /bin
# <------ storage.modifier
#      ^^^^ variable.other
#           ^^ keyword.operator.assignment
override X = 1
# <-------- storage.modifier
#        ^ variable.other
D != date
# ^^ keyword.operator.assignment
$(N)_SRC := $(patsubst %.c,%.o,$(wildcard src/*.c)) $(SRC:.c=.o) $(call fn,a,(b))
# ^ variable.other
#   ^^^^ variable.other
#             ^^^^^^^^ support.function
#                      ^ variable.language
#                         ^ punctuation.separator
#                                ^^^^^^^^ support.function
#                                                     ^^^ variable.other
#                                                        ^ keyword.operator
#                                                           ^ keyword.operator
#                                                                  ^^^^ support.function
#                                                                       ^^ variable.function
#                                                                            ^ punctuation
#                                                                              ^ punctuation.section.group.end
#                                                                               ^ punctuation.section.interpolation.end
export A B
# <------ storage.modifier
#      ^ variable.other
-include $(DEPS) a.mk
# <-------- keyword.control.import
#          ^^^^ variable.other
ifeq ($(OS),Windows) # c
# <---- keyword.control.conditional
#    ^ punctuation.section.group.begin
#       ^^ variable.other
#          ^ punctuation.separator
#                    ^^^ comment
  ifneq "$(A)" 'b'
# ^^^^^ keyword.control.conditional
#       ^ string.quoted.double
#              ^^^ string.quoted.single
else ifdef DEBUG
# <---- keyword.control.conditional
#    ^^^^^ keyword.control.conditional
#          ^^^^^ variable.other
else
# <---- keyword.control.conditional
endif
# <----- keyword.control.conditional
.PHONY: all clean
# <------ support.function.target
#     ^ keyword.operator
#       ^^^ meta.prerequisites - entity
all clean: $(OBJS) | dir ; @echo hi
# <--- entity.name.function
#   ^^^^^ entity.name.function
#        ^ keyword.operator
#            ^^^^ variable.other
#                  ^ keyword.operator
#                        ^ punctuation.terminator
#                          ^ storage.modifier
#                           ^^^^ source.shell.bash support.function.builtin
%.o: %.c
# <- variable.language
#^^ entity.name.function
#  ^ keyword.operator
#    ^ variable.language
	@$(CC) $(CFLAGS) -c $< -o "$@" && x=$$HOME; echo $$(date) '$^' $(@D)
#^ storage.modifier
#   ^^ variable.other
#                 ^^ source.shell.bash variable.parameter.option
#                    ^^ variable.language
#                           ^^ string.quoted.double variable.language
#                               ^^ keyword.operator.logical
#                                    ^^ punctuation.definition.variable
#                                      ^^^^ variable.other.readwrite
#                                            ^^^^ support.function.builtin
#                                                    ^^^^ meta.interpolation variable.function
#                                                           ^^ string.quoted.single variable.language
#                                                                 ^^ variable.language
	-rm -f *.o # it's
#^ storage.modifier
# ^^ source.shell.bash variable.function
#           ^^^^^^ comment.line
	if [ -f x ]; then echo "a"; fi
#^^ keyword.control.conditional.shell
#                            ^^ keyword.control.conditional.shell
	echo 'unclosed
#     ^^^^^^^^^ string.quoted.single
V = 1
# <- variable.other - string
debug: CFLAGS += -g
# <----- entity.name.function
#    ^ keyword.operator
#      ^^^^^^ variable.other
#             ^^ keyword.operator.assignment
#                ^^ string.unquoted
$(OBJS): %.o : %.c
# ^^^^ variable.other
#      ^ keyword.operator
#            ^ keyword.operator
define run
# <------ keyword.declaration
#      ^^^ entity.name.function
	@echo $(1) $$x
#^ storage.modifier
#        ^ variable.other
#           ^^ constant.character.escape
endef
# <----- keyword.declaration
$(eval $(call run,x))
# ^^^^ support.function
#             ^^^ variable.function
L = a \
    b
#   ^ string.unquoted
W = x
# <- variable.other
unclosed = $(foo
after = 1
# <----- variable.other - meta.interpolation
