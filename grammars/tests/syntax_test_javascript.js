// SYNTAX TEST "JavaScript.sublime-syntax"

// a "quote' in a comment
// <- comment.line.double-slash punctuation.definition.comment
//    ^ comment.line.double-slash - string

/* block */ x
// <- comment.block punctuation.definition.comment.begin
//       ^^ punctuation.definition.comment.end
//          ^ variable.other.readwrite - comment

/** @param {string} name the name */
// <- comment.block.documentation
//  ^^^^^^ keyword.other.documentation
//          ^^^^^^ entity.name.type
//                                ^^ punctuation.definition.comment.end

import def, { a as b, default as c } from './x.js';
// <- keyword.control.import
//     ^^^ variable.other.readwrite
//            ^ variable.other.readwrite
//              ^^ keyword.control.import
//                    ^^^^^^^ keyword.control.import
//                                   ^^^^ keyword.control.import
//                                        ^^^^^^^^ string.quoted.single
//                                                ^ punctuation.terminator
import * as ns from "m" with { type: "json" }
//     ^ constant.other
//       ^^ keyword.control.import
//                      ^^^^ keyword.control.import
//                             ^^^^ variable.other.member
const m = await import('x'), u = import.meta.url;
// <- storage.type
//        ^^^^^ keyword.control.flow
//              ^^^^^^ keyword.control.import
//                                      ^^^^ variable.language
//                                           ^^^ variable.other.member
export default { name: 'x' };
// <- keyword.control.import
//     ^^^^^^^ keyword.control.import
//             ^^^^^^^^^^^^^ meta.object-literal
export const LIMIT = 0xFF_FFn;
//     ^^^^^ storage.type
//           ^^^^^ variable.other.constant
//                 ^ keyword.operator.assignment
//                   ^^^^^^^^ constant.numeric.integer.hexadecimal
n = 0b1010 + 0o17 + 1_000.5e-3 + .5 + 10n + 017;
//  ^^^^^^ constant.numeric.integer.binary
//         ^ keyword.operator.arithmetic
//           ^^^^ constant.numeric.integer.octal
//                  ^^^^^^^^^^ constant.numeric.float
//                               ^^ constant.numeric.float
//                                    ^^^ constant.numeric.integer.decimal
//                                          ^^^ constant.numeric.integer.octal

s = "a // b \n \u{1F600} \x41" + 'it\'s';
//  ^ string.quoted.double punctuation.definition.string.begin
//    ^^ string.quoted.double - comment
//          ^^ constant.character.escape
//             ^^^^^^^^^ constant.character.escape
//                       ^^^^ constant.character.escape
//                               ^^^^^^^ string.quoted.single
//                                  ^^ constant.character.escape
s = 'open
t = 1;
// <- variable.other - string
s = 'one \
two';
// <- string.quoted.single
//  ^ punctuation.terminator - string

t = `a ${b + `in ${c}`} d \` e`;
//  ^^^ string.quoted.other
//     ^^ punctuation.section.interpolation.begin
//       ^ meta.interpolation variable.other - string
//           ^ string.quoted.other
//                 ^ meta.interpolation meta.interpolation variable.other
//                    ^ punctuation.section.interpolation.end
//                        ^^ constant.character.escape
html`<p>`;
// <- variable.function

r = /a[/\]]+(?<n>\d)\/$/gi.test(x);
//  ^ string.regexp punctuation.definition.string.begin
//    ^^^^^ string.regexp constant.other.character-class.set
//         ^ keyword.operator.quantifier
//             ^ entity.name.capture
//               ^^ constant.other.character-class
//                  ^^ constant.character.escape
//                     ^ punctuation.definition.string.end
//                      ^^ keyword.other.flags
//                         ^^^^ variable.function - string
q = a / b / c; w = (a + b) / 2 / arr[0] / 3;
//    ^ keyword.operator.arithmetic
//        ^ keyword.operator.arithmetic
//                         ^ keyword.operator.arithmetic
//                             ^ keyword.operator.arithmetic
//                                      ^ keyword.operator.arithmetic
if (x) /re/.exec(y);
// <- keyword.control.conditional
//     ^^^^ string.regexp
return /re/;
//     ^^^^ string.regexp
x++ / 2;
//  ^ keyword.operator.arithmetic
y = x
  / 2;
//^ keyword.operator.arithmetic - string
y = 0
/**/
function f() {}
// <- storage.type.function
if (a < b && c > d || !e ?? f) {}
//    ^ keyword.operator.comparison
//        ^^ keyword.operator.logical
//             ^ keyword.operator.comparison
//                    ^ keyword.operator.logical
//                       ^^ keyword.operator.logical

async function* gen(a, { b: c = 1, d }, [e], ...rest) { yield* a; }
// <- storage.modifier.async
//    ^^^^^^^^ storage.type.function
//            ^ keyword.generator
//              ^^^ entity.name.function
//                 ^ punctuation.section.group.begin
//                  ^ variable.parameter
//                       ^ meta.function.parameters variable.other.member
//                          ^ variable.parameter
//                              ^ constant.numeric
//                                       ^ variable.parameter
//                                           ^^^ keyword.operator.spread
//                                              ^^^^ variable.parameter
//                                                    ^ meta.block punctuation.section.block.begin
//                                                      ^^^^^^ keyword.control.flow
const add = (a, b = f(1)) => a + b, id = x => x, o = async () => ({ k: 1 });
//    ^^^ entity.name.function
//           ^ variable.parameter
//                  ^ variable.function
//                        ^^ storage.type.function.arrow
//                                  ^^ entity.name.function
//                                       ^ variable.parameter
//                                                   ^^^^^ storage.modifier.async
//                                                                  ^ variable.other.member
Foo.prototype.bar = function () { return this.default.if; };
//            ^^^ entity.name.function
//                                       ^^^^ variable.language
//                                            ^^^^^^^ variable.other.member
//                                                    ^^ variable.other.member - keyword
a?.b?.(c)?.[0];
//^ punctuation.accessor
// ^ variable.function
class Z extends Y {}
//              ^ entity.other.inherited-class
class A extends ns.B {
// <- storage.type.class
//    ^ entity.name.class
//      ^^^^^^^ storage.modifier.extends
//                 ^ entity.other.inherited-class
  #priv = 1
//^^^^^ variable.other.member
  static count = { a: 1 };
//^^^^^^ storage.modifier
//       ^^^^^ variable.other.member
//                 ^ variable.other.member
  handler = (e) => {
//^^^^^^^ entity.name.function
  }
  static { init(); }
//^^^^^^ storage.modifier
//         ^^^^ variable.function
  constructor(x) { super(x); }
//^^^^^^^^^^^ entity.name.function
//            ^ variable.parameter
//                 ^^^^^ variable.language
  get value() { return this.#priv; }
//^^^ storage.modifier
//    ^^^^^ entity.name.function
//                          ^^^^^ variable.other.member
  async *[Symbol.iterator]() {}
//^^^^^ storage.modifier
//        ^^^^^^ support.class
  @log(1) delete() {}
//^ meta.annotation punctuation.definition.annotation
// ^^^ variable.annotation
//        ^^^^^^ entity.name.function - keyword
}
// <- punctuation.section.block.end
const obj = { if: 1, 'q-x': true, [k]: null, method() {}, fn: () => 1, short, get z() {} };
//            ^^ variable.other.member - keyword
//                   ^^^^^ string.quoted.single
//                          ^^^^ constant.language
//                                     ^^^^ constant.language
//                                           ^^^^^^ entity.name.function
//                                                        ^^ entity.name.function
//                                                                     ^^^^^ variable.other.readwrite
//                                                                            ^^^ storage.modifier
outer:
// <- entity.name.label
for (const x of xs) { continue outer; }
// <- keyword.control.loop
//   ^^^^^ storage.type
//           ^^ keyword.operator.word
//                    ^^^^^^^^ keyword.control.flow
//                             ^^^^^ variable.label
switch (x) { case 'a': { break } default: throw new ns.Err(typeof x) }
// <- keyword.control.conditional
//           ^^^^ keyword.control.conditional
//                   ^ punctuation.separator.case
//                     ^ punctuation.section.block.begin
//                               ^^^^^^^ keyword.control.conditional
//                                        ^^^^^ keyword.control.flow
//                                              ^^^ keyword.operator.word.new
//                                                     ^^^ support.class
//                                                         ^^^^^^ keyword.operator.word
try { JSON.parse(s) } catch (e) { } finally { }
// <- keyword.control.exception
//    ^^^^ support.class
//         ^^^^^ variable.function
//                           ^ variable.parameter
const v = ok ? { a: 1 } : { b: 2 };
//           ^ keyword.operator.ternary
//               ^ variable.other.member
//                          ^ variable.other.member
const $if = $, iffy = returned;
//    ^^^ variable.other - keyword
//             ^^^^ variable.other - keyword
//                    ^^^^^^^^ variable.other - keyword
const el = <Foo.Bar id="x" on={() => go(1)} {...p}>text &amp; {n < 2} <br/></Foo.Bar>;
//         ^ punctuation.definition.tag.begin
//          ^^^^^^^ entity.name.tag
//                  ^^ entity.other.attribute-name
//                     ^^^ string.quoted.double
//                            ^ punctuation.section.interpolation.begin
//                                   ^^ variable.function
//                                                      ^^^^^ constant.character.entity
//                                                               ^ keyword.operator.comparison
//                                                                     ^^ entity.name.tag
//                                                                           ^^^^^^^ entity.name.tag
//                                                                                   ^ punctuation.terminator
x = 1 }
//    ^ invalid.illegal.stray-bracket-end
// ^ - source.css
class D { @inject(TOKEN, { a: 1 }) field = async (
//         ^^^^^^ variable.annotation
//                ^^^^^ variable.other.constant
//                         ^ variable.other.member
//                                 ^^^^^ variable.other.member
//                                         ^^^^^ storage.modifier.async
  x
) => { return /x/; } }
//            ^^^ string.regexp
{ inner: for (;;) break inner; }
//^^^^^ entity.name.label
//       ^^^ keyword.control.loop
