// SYNTAX TEST "Rust.sublime-syntax"
// <- comment.line.double-slash punctuation.definition.comment
/// Documentation "with" quotes
//^^^^^^^^^^^^^^^^^^ comment.line.documentation
//! inner
// <- comment.line.documentation
//// no documentation
//^^^^ comment.line.double-slash
/* a /* nested " */ block */ fn
// <- comment.block punctuation.definition.comment
//   ^^ comment.block comment.block
//                     ^^^^^ comment.block
//                           ^^ keyword.declaration.function storage.type.function - comment
/** doc */ let
// ^^^^^^^ comment.block.documentation
//         ^^^ keyword.declaration.variable
/**/ let
//   ^^^ keyword.declaration - comment

#![allow(dead_code)]
// <- meta.annotation punctuation.definition.annotation
// ^^^^^ meta.annotation variable.annotation
#[derive(Debug, Clone)] #[path = "x]y"]
//^^^^^^ variable.annotation
//       ^^^^^ meta.annotation support.type
//                               ^^^^^ meta.annotation string.quoted.double
//                                    ^ punctuation.section.brackets.end
use std::{collections::{HashMap, hash_map}, io::*};
// <- keyword.control.import
//     ^^ punctuation.accessor
//                      ^^^^^^^ support.type
//                                              ^ keyword.operator.wildcard
//                                                ^ punctuation.terminator
use self::a as b;
//  ^^^^ variable.language
//          ^^ keyword.operator.word
extern crate serde;
// <- keyword.control.import
pub(crate) mod tools;
// <- storage.modifier
//  ^^^^^ variable.language
//         ^^^ keyword.declaration
//             ^^^^^ entity.name.namespace
pub struct Point<'a, T: Copy = u8> where T: Eq {
//  ^^^^^^ keyword.declaration.struct storage.type.struct
//         ^^^^^ entity.name.struct
//              ^ punctuation.definition.generic.begin
//               ^^ storage.modifier.lifetime
//                   ^ meta.generic support.type
//                             ^^ storage.type.primitive
//                               ^ punctuation.definition.generic.end
//                                 ^^^^^ keyword.other
    pub x: &'a T,
//  ^^^ storage.modifier
//      ^ variable.other.member
//         ^ keyword.operator
//          ^^ storage.modifier.lifetime
    r#type: [u8; 4],
//  ^^^^^^ variable.other.member
//           ^^ storage.type.primitive
//               ^ constant.numeric.integer
}
// <- punctuation.section.block.end
struct Unit;
//     ^^^^ entity.name.struct
enum Shape<T> { Round(T), Square { side: f64 } }
//   ^^^^^ entity.name.enum
//                                       ^^^ storage.type.primitive
trait Area: Sized { type Out; const N: usize = 1; }
//    ^^^^ entity.name.interface
//                       ^^^ entity.name.type
//                                  ^ entity.name.constant - storage
impl<T> Area for Shape<T> where T: Into<f64> {
// <- keyword.declaration.impl
//           ^^^ keyword.declaration.impl
//               ^^^^^ support.type
//                    ^ punctuation.definition.generic.begin
    async fn area<U>(&self, mut other: &U, f: fn(u8) -> u8) -> Vec<u8> { 1 }
//  ^^^^^ storage.modifier
//           ^^^^ entity.name.function
//                    ^^^^ variable.language
//                          ^^^ storage.modifier
//                              ^^^^^ variable.parameter
//                                                          ^^ keyword.operator.arrow
//                                                             ^^^ support.type
//                                                                       ^ meta.block constant.numeric.integer
}
// <- punctuation.section.block.end
static mut COUNT: u32 = 0;
// <- keyword.declaration
//     ^^^ storage.modifier
//         ^^^^^ entity.name.constant
fn main() {
    let s = "a \n \x41 \u{1F600} {} {x:>8.2} {{ \q // no comment";
//          ^ string.quoted.double punctuation.definition.string.begin
//             ^^ constant.character.escape
//                ^^^^ constant.character.escape
//                     ^^^^^^^^^ constant.character.escape
//                               ^^ constant.other.placeholder
//                                  ^^^^^^^^ constant.other.placeholder
//                                           ^^ constant.character.escape
//                                              ^^ invalid.illegal
//                                                 ^^^^^^^^^^^^^ string.quoted.double - comment
    let r = r#"raw "quoted" \n"# + br"x\" + b"\xff" + c"z";
//          ^ storage.type.string
//              ^^^^^^^^^^^^^^^ string.quoted.double.raw - constant.character.escape
//                               ^ keyword.operator.arithmetic
//                                        ^ keyword.operator - string
//                                            ^^^^ constant.character.escape
    let c = ('a', '\'', b'\n', '"', '\u{41}');
//           ^^^ string.quoted.single
//                 ^^ constant.character.escape
//                      ^ storage.type.string
//                             ^^^ string.quoted.single
    let t: &'static str = x; // it's
//          ^^^^^^^ storage.modifier.lifetime
//                  ^^^ storage.type.primitive
    'outer: loop { break 'outer; }
//  ^^^^^^ entity.name.label
//          ^^^^ keyword.control.loop
//                 ^^^^^ keyword.control.flow
//                       ^^^^^^ storage.modifier.lifetime
    let n = 0xFF_u8 + 0o77 + 0b1010_1010 + 1_000i64 + 1.5e-3f32 + 2. + 1e10 + 3f64;
//          ^^ constant.numeric.integer.hexadecimal
//               ^^ storage.type.numeric
//                    ^^^^ constant.numeric.integer.octal
//                           ^^^^^^^^^^^ constant.numeric.integer.binary
//                                         ^^^^^^^^ constant.numeric.integer.decimal
//                                                    ^^^^^^^^^ constant.numeric.float
//                                                                ^^ constant.numeric.float
//                                                                     ^^^^ constant.numeric.float
//                                                                            ^^^^ constant.numeric.float
    for i in 0..10 { t.0.1; x.len(); x.len; 1.max(2); }
//  ^^^ keyword.control.loop
//        ^^ keyword.operator.word
//           ^ constant.numeric.integer
//            ^^ keyword.operator.range
//                    ^ punctuation.accessor
//                     ^ constant.numeric.integer
//                            ^^^ variable.function
//                                     ^^^ variable.other.member
//                                            ^^^ variable.function
    let v = Vec::<u8>::with_capacity(MAX_LEN) as Box<dyn Fn(u8)>;
//          ^^^ support.type
//             ^^ punctuation.accessor
//               ^ punctuation.definition.generic.begin
//                     ^^^^^^^^^^^^^ variable.function
//                                   ^^^^^^^ constant.other
//                                            ^^ keyword.operator.word
//                                                   ^^^ storage.modifier
    if a < b && c > d || !e { r#match(r#fn) } else { a <<= 2; a != b }
//       ^ keyword.operator.comparison
//           ^^ keyword.operator.logical
//                ^ keyword.operator.comparison
//                            ^^^^^^^ variable.function
//                                    ^^^^ variable.other
//                                            ^^^^ keyword.control.conditional
//                                                     ^^^ keyword.operator.assignment
//                                                              ^^ keyword.operator.comparison
    println!("{:?} {0}", x); vec![1, 2];
//  ^^^^^^^^ support.macro
//            ^^^^ constant.other.placeholder
//                           ^^^^ support.macro
    let f = |a: u8, (b, c)| a | b; fut.await?;
//          ^ punctuation.section.group.begin
//           ^ variable.parameter
//              ^^ storage.type.primitive
//                   ^ variable.parameter
//                            ^ keyword.operator.bitwise
//                                     ^^^^^ keyword.control.flow
//                                          ^ keyword.operator
    match o { Some(x) if x == true => None, _ => Self::new(self) }
//            ^^^^ support.constant
//                         ^^ keyword.operator.comparison
//                            ^^^^ constant.language
//                                 ^^ keyword.operator.arrow
//                                          ^ variable.language
//                                               ^^^^ variable.language
//                                                         ^^^^ variable.language
}
macro_rules! my_vec { ($($x:expr),* $(,)?) => { $crate::f($x) }; }
// <- keyword.declaration.macro
//           ^^^^^^ entity.name.macro
//                     ^ keyword.operator.macro
//                        ^ variable.parameter.macro
//                          ^^^^ storage.type.macro
//                                               ^^^^^ variable.language
//                                                        ^ variable.other.macro
union_call(union);
// <- variable.function
union Both { a: u8 }
//    ^^^^ entity.name.struct
let multi = "a \
   b"; let
// ^ string.quoted.double
//     ^^^ keyword.declaration
