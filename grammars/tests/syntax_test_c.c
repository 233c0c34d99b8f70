// SYNTAX TEST "C.sublime-syntax"
// <- comment.line.double-slash punctuation.definition.comment
/* a "block // */ int x;
// <- comment.block
//                ^^^ storage.type.primitive - comment
/** doc */ int y;
// ^^^^^^^ comment.block.documentation
// continued \
   int still_comment;
// ^^^ comment.line
#include <stdio.h> // why "so"
// <- meta.preprocessor punctuation.definition.preprocessor
//^^^^^^ keyword.control.import
//       ^^^^^^^^^ string.quoted.other.lt-gt
//                 ^^^^^^^^^^^ comment.line
#include "a.h"
//       ^^^^^ string.quoted.double
#define MAX(a, b) ((a) > (b) ? \
                   (a) : (b##c)) /* x */
// <- meta.preprocessor
//                         ^^ keyword.operator
//                               ^^^^^^^ comment.block
#define SWAP(x, y) { x
//^^^^^ keyword.control.import
//      ^^^^ entity.name.function
//           ^ variable.parameter
#define NAME 0x1F // it's
//      ^^^^ entity.name.constant
//           ^^^^ constant.numeric
//                ^^ comment.line
int after;
// <- storage.type.primitive - meta.preprocessor
#if defined(A) && B > 1
// <- meta.preprocessor
//^ keyword.control.import
//  ^^^^^^^ keyword.operator.word
//             ^^ keyword.operator.logical
#error don't "worry
//     ^^^^^^^^^^^^ string.unquoted
#endif
//^^^^ keyword.control.import
#if 0
int dead; // it's
// <- comment.block
#if X
#else
#endif
  dead
// ^ comment.block
#else
int live;
// <- storage.type.primitive - comment
#endif
#if 0
x "
#endif
int live2;
// <- storage.type.primitive - comment
typedef struct node {
// <- keyword.declaration.typedef storage.type
//      ^^^^^^ keyword.declaration.struct
//             ^^^^ entity.name.struct
    struct node *next;
//         ^^^^ support.type
    uint32_t bits : 3;
//  ^^^^^^^^ support.type
} node_t;
//^^^^^^ support.type
enum color { RED = 1, GREEN };
// <- keyword.declaration.enum
//   ^^^^^ entity.name.enum
//           ^^^ constant.other
static const char *names[] = { "a", [1] = "b", f(1) };
// <- storage.modifier
//     ^^^^^ storage.modifier
//           ^^^^ storage.type.primitive
//                                             ^ variable.function - entity
int main(int argc, char **argv)
//  ^^^^ entity.name.function
//       ^^^ storage.type.primitive
//           ^^^^ variable.parameter
//                        ^^^^ variable.parameter
{
// <- punctuation.section.block.begin
    printf("%5.2f%% \x41 \n \q %s // not\n", 3.14f);
//  ^^^^^^ variable.function support.function
//          ^^^^^ constant.other.placeholder
//               ^^ constant.character.escape
//                  ^^^^ constant.character.escape
//                          ^^ invalid.illegal
//                             ^^ constant.other.placeholder
//                                ^^^^^^ string.quoted.double - comment
//                                           ^^^^ constant.numeric.float
//                                               ^ storage.type.numeric
    char c = '\'', d = L'"', e = '\0';
//           ^^^^ string.quoted.single
//            ^^ constant.character.escape
//                     ^ storage.type.string
//                      ^^^ string.quoted.single
//                                ^^ constant.character.escape
    x = 0xFFul + 0b101 + 017 + 1e10 + .5 + 1.L + 0x1.8p3 + 1'000;
//      ^^ constant.numeric.integer.hexadecimal
//          ^^ storage.type.numeric
//               ^^^^^ constant.numeric.integer.binary
//                       ^^^ constant.numeric.integer.octal
//                             ^^^^ constant.numeric.float
//                                    ^^ constant.numeric.float
//                                         ^^ constant.numeric.float
//                                               ^^^^^^^ constant.numeric.float.hexadecimal
//                                                         ^^^^^ constant.numeric.integer.decimal
    p->next = a.b->call(sizeof(int), NULL);
//   ^^ punctuation.accessor
//     ^^^^ variable.other.member
//                 ^^^^ variable.function
//                      ^^^^^^ keyword.operator.word
//                             ^^^ storage.type.primitive
//                                   ^^^^ constant.language
    if (a < b && c >> 2) goto done; else return -1;
//  ^^ keyword.control.conditional
//        ^ keyword.operator.comparison
//                 ^^ keyword.operator.bitwise
//                       ^^^^ keyword.control.flow
//                            ^^^^ variable.label
//                                       ^^^^^^ keyword.control.flow
//                                              ^ keyword.operator.arithmetic
    for (size_t i = 0; i < MAX_LEN; i++) { x += a ? b : c; }
//  ^^^ keyword.control.loop
//       ^^^^^^ support.type
//                         ^^^^^^^ constant.other
//                                   ^^ keyword.operator.arithmetic
//                                           ^^ keyword.operator.assignment
done:
// <- entity.name.label
    switch (x) { case 1: break; default: continue; }
//  ^^^^^^ keyword.control.conditional
//                     ^ punctuation.separator
    "unterminated
    int z;
//  ^^^ storage.type.primitive - string
    "a \
  b";
// <- string.quoted.double
    helper(1);
//  ^^^^^^ variable.function - entity
#ifdef A
    if (x) {
#else
    if (y) {
#endif
    }
}
static inline void next(void) { }
// <- storage.modifier
//                 ^^^^ entity.name.function
[[nodiscard]] int g(struct s *p, void (*cb)(int));
//^^^^^^^^^ meta.annotation variable.annotation
//                ^ entity.name.function
//                            ^ variable.parameter
MODULE_LICENSE("GPL");
// <- variable.function support.function
extern "C" {
// <- storage.modifier
//     ^^^ string.quoted.double
int h(void);
//  ^ entity.name.function
}
// <- punctuation.section.block.end
#if 0
#endif
int live3;
// <- storage.type.primitive - comment
