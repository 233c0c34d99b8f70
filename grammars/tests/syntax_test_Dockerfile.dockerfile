# SYNTAX TEST "Dockerfile.sublime-syntax"
# syntax=docker/dockerfile:1
# <- comment.line
# ^^^^^^ keyword.other.directive
# a comment "with FROM
# <- comment.line punctuation.definition.comment
#                 ^^^^ comment.line - keyword
ARG VERSION=1.2 NAME
# <--- keyword.other
#   ^^^^^^^ variable.other
#          ^ keyword.operator.assignment
#           ^^^ constant.numeric
#               ^^^^ variable.other
FROM --platform=linux/amd64 reg.io:5000/golang:${VERSION:-x}-alpine AS build
# <---- keyword.control
#    ^^^^^^^^^^ variable.parameter.option
#               ^^^^^^^^^^^ string.unquoted
#                           ^^^^^^ support.class
#                                              ^^ punctuation.section.interpolation.begin
#                                                ^^^^^^^ variable.other
#                                                       ^^ keyword.operator
#                                                                   ^^ keyword.control
#                                                                      ^^^^^ entity.name.label
from scratch
# <---- keyword.control
#    ^^^^^^^ constant.language
FROM ubuntu:22.04@sha256:abcdef
#    ^^^^^^ support.class
#          ^ punctuation.separator
#           ^^^^^ constant.other.tag
#                 ^^^^^^^^^^^^^ constant.other.digest
ENV PATH=/usr/bin:$PATH A="b c" \
    B=2
#   ^ variable.other
#     ^ constant.numeric
ENV PATH=/usr/bin:$PATH A="b $c" D='e' F=\ g
# <--- keyword.other
#   ^^^^ variable.other
#        ^^^^^^^^^ string.unquoted
#                 ^^^^^ variable.other.readwrite
#                   ^ variable.other
#                         ^^ string.quoted.double
#                            ^^ string.quoted.double variable.other.readwrite
#                                ^ variable.other
#                                  ^^^ string.quoted.single
#                                      ^ variable.other
#                                        ^^ - variable
ENV OLD some value
#   ^^^ variable.other
LABEL org.x.title="My" v=1
# <----- keyword.other
#     ^^^^^^^^^^^ variable.other
#                 ^^^^ string.quoted.double
RUN --mount=type=cache,target=/x apt-get update -y && echo "a $X" | tee 'f' # c
# <--- keyword.other
#   ^^^^^^^ variable.parameter.option
#                                ^^^^^^^ source.shell.bash variable.function
#                                               ^^ source.shell.bash variable.parameter.option
#                                                  ^^ keyword.operator.logical
#                                                     ^^^^ support.function.builtin
#                                                          ^^ string.quoted.double
#                                                              ^ variable.other.readwrite
#                                                                 ^ keyword.operator.pipe
#                                                                       ^^^ string.quoted.single
#                                                                           ^^^ comment.line
RUN if [ -f x ]; then \
# a comment inside
    # another "one
      rm -rf /x; \

    fi
#   ^^ source.shell.bash keyword.control.conditional
RUN ["apt", "-y"]
#   ^ punctuation.section.sequence.begin
#    ^^^^^ string.quoted.double
#         ^ punctuation.separator
#               ^ punctuation.section.sequence.end
CMD ["x", \
  "y"]
# ^^^ string.quoted.double
#    ^ punctuation.section.sequence.end
ENTRYPOINT exec top -b
# <---------- keyword.other
#          ^^^^ support.function.builtin
#                   ^^ variable.parameter.option
RUN echo 'unclosed
#        ^^^^^^^^^ string.quoted.single
COPY --from=build --chown=a:b /src/*.go "$DIR/x" ./
# <---- keyword.other - string
#    ^^^^^^ variable.parameter.option
#           ^^^^^ string.unquoted
#                                  ^ keyword.operator
#                                       ^^^^^ string.quoted.double
#                                         ^^^ variable.other
ADD ["a b", "c"]
#    ^^^^^ string.quoted.double
EXPOSE 80/tcp 8000-8010 $PORT
#      ^^ constant.numeric
#         ^^^ constant.language
#             ^^^^^^^^^ constant.numeric
#                       ^^^^^ variable.other
HEALTHCHECK --interval=5m CMD curl -f http://x/ || exit 1
# <----------- keyword.other
#           ^^^^^^^^^^ variable.parameter.option
#                         ^^^ keyword.other
#                             ^^^^ variable.function
#                                               ^^ keyword.operator
#                                                  ^^^^ keyword.control
ONBUILD RUN ls
# <------- keyword.control
#       ^^^ keyword.other
#           ^^ variable.function
WORKDIR /app/$X
# <------- keyword.other
#            ^^ variable.other
USER root
# <---- keyword.other
RUN <<EOF
#   ^^ keyword.operator
#     ^^^ entity.name.tag.heredoc
apt-get install -y $x
# <------- source.shell.bash variable.function
#               ^^ variable.parameter.option
EOF
# <--- entity.name.tag.heredoc
COPY <<-"END" /etc/x
#        ^^^ entity.name.tag.heredoc
it's text
# <---- string.unquoted.heredoc - string.quoted
	END
#^^^ entity.name.tag.heredoc
STOPSIGNAL SIGTERM
# <---------- keyword.other
