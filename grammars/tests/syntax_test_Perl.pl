# SYNTAX TEST "Perl.sublime-syntax"

# a comment "with 'quotes
# <- comment.line.number-sign punctuation.definition.comment
#           ^^^^^^^^^^^^^ comment - string
=head1 NAME
# <------ comment.block.documentation keyword.other.documentation
it's "pod"
# <---- comment.block.documentation - string
=cut
# <---- comment.block.documentation
package Foo::Bar 1.02;
# <------- storage.type.namespace keyword.declaration
#       ^^^^^^^^ entity.name.namespace
#                ^^^^ constant.numeric
use strict; use v5.10; use List::Util qw(first max);
# <--- keyword.control.import
#   ^^^^^^ support.class
#               ^^^^^ constant.numeric
#                          ^^^^^^^^^^ support.class
#                                     ^^ storage.type.string
#                                       ^ punctuation.definition.string.begin
#                                        ^^^^^^^^^ string.quoted.other
#                                                 ^ punctuation.definition.string.end
my ($x, @y, %z) = @_; our $VERSION = '1.0';
# <-- storage.modifier
#   ^^ variable.other
#       ^^ variable.other
#           ^^ variable.other
#               ^ keyword.operator.assignment
#                 ^^ variable.language
#                     ^^^ storage.modifier
#                                    ^^^^^ string.quoted.single
sub add { my $self = shift; return $self->{count} + $_[0]; }
# <--- storage.type.function keyword.declaration
#   ^^^ entity.name.function
#       ^ punctuation.section.block.begin
#            ^^^^^ variable.language
#                    ^^^^^ support.function.builtin
#                           ^^^^^^ keyword.control.flow
#                                       ^^ punctuation.accessor
#                                          ^^^^^ string.unquoted.key
#                                                 ^ keyword.operator.arithmetic
#                                                      ^ constant.numeric
sub sig ($a1, $b1 = 5, @r) { } sub proto($$;@) { } my $c = sub { 1 };
#   ^^^ entity.name.function
#        ^^^ variable.parameter
#                 ^ keyword.operator.assignment
#                   ^ constant.numeric
#                      ^^ variable.parameter
#                                  ^^^^^ entity.name.function
#                                        ^^^^ storage.modifier.prototype
#                                                          ^^^ storage.type.function
my $s = "a\n$x $h{k} @{[ $y + 1 ]} ${name} \$no \x{263A} %d" . 'it\'s $x';
#       ^^ string.quoted.double
#         ^^ constant.character.escape
#           ^^ string.quoted.double variable.other
#                    ^^ punctuation.section.interpolation.begin
#                           ^ meta.interpolation keyword.operator - string
#                                ^ punctuation
#                                  ^^^^^^^ variable.other
#                                          ^^ constant.character.escape
#                                            ^^ string.quoted.double - variable
#                                               ^^^^^^^^ constant.character.escape
#                                                        ^^ constant.other.placeholder
#                                                            ^ keyword.operator.concatenation
#                                                                 ^^ constant.character.escape
#                                                                     ^^ - variable.parameter
my %h = (key => 1, -opt => "v", q => 2, s => 3, y => 4);
#  ^^ variable.other
#        ^^^ string.unquoted.key
#            ^^ punctuation.separator.key-value
#                  ^^^^ string.unquoted.key
#                               ^ string.unquoted.key
#                                       ^ string.unquoted.key
#                                               ^ string.unquoted.key
if ($x =~ /^a[^\/"]+(\d{2,3})$v$/ix && $y !~ m{b/{c}}x) { s/a'(b)/$1"c/g; tr/a-z/A-Z/; }
# <-- keyword.control.conditional
#      ^^ keyword.operator.match
#         ^ string.regexp punctuation.definition.string.begin
#          ^ keyword.operator.regexp
#            ^^^^^^ constant.other.character-class
#                    ^^ constant.character.escape
#                      ^^^^^ keyword.operator
#                            ^^ variable.other
#                                ^^ keyword.other.flag
#                                   ^^ keyword.operator.logical
#                                            ^ storage.type.regexp - string
#                                              ^^^^^ string.regexp
#                                                         ^^ - variable
#                                                           ^^^ string.regexp
#                                                                 ^^ string.quoted.other variable.language
#                                                                      ^ - comment
#                                                                         ^^ storage.type.regexp
#                                                                            ^^^ string.regexp
#                                                                                ^^^ string.regexp
my $q = $a1 / $b1 / 2; my @p = split /,'/, $x; my $d = $x // 5; $h{y} = $h{s}{q};
#           ^ keyword.operator.arithmetic - string
#                 ^ keyword.operator.arithmetic - string
#                   ^ constant.numeric
#                              ^^^^^ support.function.builtin
#                                    ^^^^ string.regexp
#                                                         ^^ keyword.operator.logical
#                                                                  ^ string.unquoted.key
#                                                                          ^ string.unquoted.key
#                                                                             ^ string.unquoted.key
$x = q{it's {nested}} . qq[a $b [c]] . qx!ls! . qr/x/i; $x =~ s{a}{b$c}ge; $x =~ s(a) /b/x;
#    ^ storage.type.string
#      ^^^^^^^^^^^^^ string.quoted.other.raw
#                     ^ keyword.operator
#                       ^^ storage.type.string
#                            ^^ variable.other
#                               ^^^ string.quoted.other
#                                         ^^ string.quoted.other
#                                               ^^ storage.type.regexp
#                                                  ^ - variable
#                                                               ^ - variable
#                                                                   ^^ variable.other
#                                                                      ^^ keyword.other.flag
#                                                                                     ^^^ string.quoted.other
print <<"EOT" . $x, 1;
# <----- support.function.builtin
#     ^^ keyword.operator.heredoc
#        ^^^ entity.name.tag.heredoc
#             ^ keyword.operator.concatenation - string
#               ^^ variable.other - string
#                   ^ constant.numeric - string
it's $name \t
# <---- string.unquoted.heredoc - string.quoted
#    ^^^^^ variable.other
#          ^^ constant.character.escape
EOT
# <--- entity.name.tag.heredoc
print STDERR <<'RAW'; # it's
#                     ^^^^^^ comment.line - string
#     ^^^^^^ variable.language
#               ^^^ entity.name.tag.heredoc
raw $x
# <------ string.unquoted.heredoc - variable
RAW
# <--- entity.name.tag.heredoc
foo(<<~A, <<B);
# <--- variable.function
#      ^ entity.name.tag.heredoc
#           ^ entity.name.tag.heredoc
  one
# ^^^ string.unquoted.heredoc
  A
# ^ entity.name.tag.heredoc
two
# <--- string.unquoted.heredoc
B
# <- entity.name.tag.heredoc
OUTER: foreach my $i (1..10) { next OUTER unless $i % 2 == 0 and not $j; last if $#list > 3; }
# <----- entity.name.label
#      ^^^^^^^ keyword.control.loop
#              ^^ storage.modifier
#                      ^^ keyword.operator.range
#                              ^^^^ keyword.control.loop
#                                   ^^^^^ variable.label
#                                         ^^^^^^ keyword.control.conditional
#                                                   ^ keyword.operator.arithmetic
#                                                     ^ constant.numeric
#                                                            ^^^ keyword.operator.word
#                                                                ^^^ keyword.operator.word
#                                                                             ^^ keyword.control.conditional
#                                                                                ^^^^^^ variable.other
my $o = Foo::Bar->new(a => [0xFF, 0b11, 0777, 1_000, 1.5e-3, .5]); Foo::bar($x); $o->run->{x}[0]; &code; @$x; %{$y};
#       ^^^^^^^^ support.class
#               ^^ punctuation.accessor
#                 ^^^ variable.function
#                           ^^^^ constant.numeric.integer.hexadecimal
#                                 ^^^^ constant.numeric.integer.binary
#                                       ^^^^ constant.numeric.integer.octal
#                                             ^^^^^ constant.numeric.integer.decimal
#                                                    ^^^^^^ constant.numeric.float
#                                                     ^^ constant.numeric.float
#                                                                  ^^^^^ support.other.namespace
#                                                                       ^^^ variable.function
#                                                                                    ^^^ variable.function
#                                                                                          ^ string.unquoted.key
#                                                                                                 ^^^^^ variable.function
#                                                                                                        ^^^ variable.other
#                                                                                                             ^ punctuation.definition.variable
#                                                                                                               ^^ variable.other
open(my $fh, '<', $f) or die "x: $!"; while (<$fh>) { chomp; print if -e $f && $1; } my $l = "-" x 80;
# <---- support.function.builtin
#                     ^^ keyword.operator.word
#                        ^^^ keyword.control.flow
#                                ^^ variable.language
#                                     ^^^^^ keyword.control.loop
#                                             ^^^ variable.language.filehandle
#                                                     ^^^^^ support.function.builtin
#                                                                     ^^ keyword.operator.filetest
#                                                                              ^^ variable.language
#                                                                                                ^ - comment
#                                                                                                ^^^^ - string
#                                                                                                  ^^ constant.numeric
BEGIN { eval { require Foo; 1 } || warn $@; }
# <----- entity.name.function
#       ^^^^ keyword.control
#              ^^^^^^^ keyword.control.import
#                                  ^^^^ support.function.builtin
#                                       ^^ variable.language
__END__
# <------- keyword.control
it's the end
# <---- text.plain.data - string
