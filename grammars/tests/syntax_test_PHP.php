// SYNTAX TEST "PHP.sublime-syntax"
<p class="<?= $x ?>">a<?php
//        ^^^ punctuation.section.embedded.begin
//            ^^ source.php variable.other
//               ^^ punctuation.section.embedded.end
//                   ^ - source.php
//                    ^^^^^ punctuation.section.embedded.begin
// a comment "with ' quotes ?> <b>
// <-- comment.line.double-slash punctuation.definition.comment
//           ^^^^^^^^^^^^^^ comment - string
//                          ^^ punctuation.section.embedded.end - comment
<?php # number ' sign
//    ^ comment.line.number-sign
/* block " */ $a = 1;
// ^^^^^^^ comment.block
//            ^^ variable.other
//               ^ keyword.operator.assignment
//                 ^ constant.numeric.integer
/** doc @param int $x it's */ namespace App\Models;
// <--- comment.block.documentation
//      ^^^^^^ keyword.other.documentation
//                 ^^ comment.block.documentation variable.other
//                            ^^^^^^^^^ keyword.declaration
//                                      ^^^^^^^^^^ entity.name.namespace
use Foo\Bar as Baz, Qux;
// <--- keyword.control.import
//  ^^^ support.other.namespace
//      ^^^ support.class
//          ^^ keyword.control.import
//                     ^ punctuation.terminator
#[Route("/x", methods: ['GET'])]
// <-- meta.annotation punctuation.definition.annotation
//^^^^^ variable.annotation
//      ^^^^ string.quoted.double
//            ^^^^^^^ variable.parameter
//                      ^^^^^ string.quoted.single
abstract class User extends Base\Model implements JsonSerializable, B
// <-------- storage.modifier
//       ^^^^^ storage.type.class keyword.declaration
//             ^^^^ entity.name.class
//                  ^^^^^^^ storage.modifier
//                          ^^^^ support.other.namespace
//                               ^^^^^ entity.other.inherited-class
//                                                ^^^^^^^^^^^^^^^^ entity.other.inherited-class
//                                                                  ^ entity.other.inherited-class
{
// <- punctuation.section.block.begin
    use SomeTrait;
//  ^^^ keyword.control.import
//      ^^^^^^^^^ support.class
    public const MAX = 10;
//  ^^^^^^ storage.modifier
//         ^^^^^ storage.modifier
//               ^^^ entity.name.constant
    private ?string $name = 'it\'s';
//  ^^^^^^^ storage.modifier
//           ^^^^^^ support.type
//                  ^^^^^ variable.other
//                             ^^ constant.character.escape
    public function __construct(private int|Foo $id = 0, array $x = array(1, [2]), &...$r): static {
//         ^^^^^^^^ storage.type.function keyword.declaration
//                  ^^^^^^^^^^^ entity.name.function
//                             ^ punctuation.section.parameters.begin
//                              ^^^^^^^ storage.modifier
//                                      ^^^ support.type
//                                          ^^^ support.class
//                                              ^^^ variable.parameter
//                                                    ^ constant.numeric
//                                                       ^^^^^ support.type
//                                                                  ^^^^^^^ meta.function.parameters
//                                                                                  ^^^ keyword.operator.variadic
//                                                                                     ^^ variable.parameter
//                                                                                       ^ meta.function.parameters
//                                                                                          ^^^^^^ support.type
        return $this->list['a']?->foo(self::MAX, parent::bar(), Foo::class);
//      ^^^^^^ keyword.control.flow
//             ^^^^^ variable.language
//                  ^^ punctuation.accessor
//                    ^^^^ variable.other.member - support
//                             ^^^ punctuation.accessor
//                                ^^^ variable.function
//                                    ^^^^ variable.language
//                                        ^^ punctuation.accessor
//                                          ^^^ constant.other
//                                                       ^^^ variable.function
//                                                              ^^^ support.class
//                                                                   ^^^^^ constant.language
    }
}
$s = "a\n\x41\u{1F} $x $x[0] $x->y {$x['k']->z(1)} \$no %d" . 'plain $x';
//   ^^ string.quoted.double
//     ^^ constant.character.escape
//       ^^^^ constant.character.escape
//           ^^^^^^ constant.character.escape
//                  ^^ string.quoted.double variable.other
//                        ^ constant.numeric
//                               ^ variable.other.member
//                                 ^ punctuation.section.interpolation.begin
//                                     ^^^ meta.interpolation string.quoted.single
//                                           ^ meta.interpolation variable.function - string
//                                               ^ punctuation.section.interpolation.end
//                                                 ^^ constant.character.escape
//                                                      ^^ constant.other.placeholder
//                                                          ^ keyword.operator.concatenation
//                                                                   ^^ string.quoted.single - variable
$h = <<<EOT
//   ^^^ - keyword.operator.bitwise
//      ^^^ entity.name.tag.heredoc
it's $x and {$y} "
// <---- string.unquoted.heredoc - string.quoted
//   ^^ variable.other
//           ^^ meta.interpolation variable.other
  EOT . 'x';
//^^^ entity.name.tag.heredoc
//      ^^^ string.quoted.single
$n = <<<'X'
raw $x
// <------ string.unquoted.heredoc - variable
X;
// <- entity.name.tag.heredoc
 // <- punctuation.terminator
if ($a === null && !isset($b) or $c instanceof Foo) { echo true ? 1 : 0; } elseif (1): endif;
// <-- keyword.control.conditional
//     ^^^ keyword.operator.comparison
//         ^^^^ constant.language.null
//              ^^ keyword.operator.logical
//                  ^^^^^ support.function
//                            ^^ keyword.operator.word
//                                  ^^^^^^^^^^ keyword.operator.word
//                                             ^^^ support.class
//                                                    ^^^^ support.function
//                                                         ^^^^ constant.language.boolean
//                                                              ^ keyword.operator.ternary
//                                                                         ^^^^^^ keyword.control.conditional
//                                                                                     ^^^^^ keyword.control.conditional
foreach ($xs as $k => $v) { continue; } while (1) break;
// <------- keyword.control.loop
//           ^^ keyword.control.loop
//                 ^^ punctuation.separator.key-value
//                          ^^^^^^^^ keyword.control.loop
//                                      ^^^^^ keyword.control.loop
$f = fn(int $x) => $x ** 2; $g = function () use ($y): int { throw new \App\E("x"); };
//   ^^ storage.type.function
//      ^^^ support.type
//          ^^ variable.parameter
//                    ^^ keyword.operator.arithmetic
//                               ^^^^^^^^ storage.type.function
//                                           ^^^ keyword.other
//                                                ^^ variable.parameter
//                                                     ^^^ support.type
//                                                           ^^^^^ keyword.control
//                                                                 ^^^ keyword.operator.word
//                                                                          ^ support.class
$n = [0xFF, 0b11, 0o17, 017, 1_000, 1.5e3, .5, 1 / 2] + (int) $x <=> $y ?? PHP_EOL;
//    ^^^^ constant.numeric.integer.hexadecimal
//          ^^^^ constant.numeric.integer.binary
//                ^^^^ constant.numeric.integer.octal
//                      ^^^ constant.numeric.integer.octal
//                           ^^^^^ constant.numeric.integer.decimal
//                                  ^^^^^ constant.numeric.float
//                                   ^^ constant.numeric.float
//                                               ^ keyword.operator.arithmetic
//                                                       ^^^ storage.type.cast
//                                                               ^^^ keyword.operator.comparison
//                                                                      ^^ keyword.operator
//                                                                         ^^^^^^^ support.constant
strlen($x); my_func(name: 3); require_once 'a.php'; global $q; static $z;
// <------ support.function.builtin
//          ^^^^^^^ variable.function
//                  ^^^^ variable.parameter
//                            ^^^^^^^^^^^^ keyword.control.import
//                                                  ^^^^^^ storage.modifier
//                                                             ^^^^^^ storage.modifier
$r = match(true) { default => 1 }; enum Suit: string { case A = 'a'; }
//   ^^^^^ keyword.control.conditional
//                 ^^^^^^^ keyword.control.conditional
//                                 ^^^^ storage.type.class
//                                      ^^^^ entity.name.class
//                                            ^^^^^^ support.type
//                                                     ^^^^ keyword.control.conditional
if ($x): ?><b>html's</b><?php endif ?>
//       ^^ punctuation.section.embedded.end
//            ^^^^^^ - source.php
//                            ^^^^^ source.php keyword.control
after
// <----- text.html.basic - source.php
