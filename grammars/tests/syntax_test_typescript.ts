// SYNTAX TEST "TypeScript.sublime-syntax"

// it's "a" comment
// <-- comment.line.double-slash punctuation.definition.comment
//      ^^^ comment.line - string
/** @param {string} x */
// <--- comment.block.documentation
//  ^^^^^^ keyword.other.documentation
import type { A, B as C } from './a';
// <------ keyword.control.import
//     ^^^^ keyword.control.import
//               ^ variable.other.readwrite
//                 ^^ keyword.control.import
//                             ^^^^^ string.quoted.single
import x, { type T } from "b"
//     ^ variable.other.readwrite
//          ^^^^ keyword.control.import
//               ^ variable.other.readwrite
export type { A };
//     ^^^^ keyword.control.import
const n: number = 0xFFn, s = `a ${n as any} b`;
// <----- storage.type
//    ^ - keyword
//     ^ punctuation.separator.type
//       ^^^^^^ support.type.primitive
//              ^ keyword.operator.assignment
//                ^^^^^ constant.numeric.integer.hexadecimal
//                                ^^^^ meta.interpolation
//                                  ^^ keyword.operator.word
//                                     ^^^ meta.interpolation support.type.primitive
//                                        ^ punctuation.section.interpolation.end
//                                          ^^ string.quoted.other
let u: string | null | undefined, t: [a: string, b?: Foo.Bar[]];
//     ^^^^^^ support.type.primitive
//            ^ keyword.operator.type
//              ^^^^ constant.language
let tup: [a: string, b?: Foo.Bar[]];
//        ^^ meta.brackets
//        ^ variable.other.member
//           ^^^^^^ support.type.primitive
//                    ^ storage.modifier.optional
//                           ^^^ support.type
//                               ^ punctuation.section.brackets.end
function f<T extends object = {}>(this: Window, a: T, b?: string, ...c: number[]): asserts a is Foo<T> { return a! / 2; }
// <-------- storage.type.function
//       ^ entity.name.function
//        ^ punctuation.definition.generic.begin
//         ^ meta.generic support.type
//           ^^^^^^^ storage.modifier
//                   ^^^^^^ support.type.primitive
//                              ^ punctuation.definition.generic.end
//                                ^^^^ variable.language
//                                      ^^^^^^ support.type
//                                              ^^^^ meta.function.parameters
//                                              ^^ meta.function.parameters
//                                                    ^^ meta.function.parameters
//                                                     ^ storage.modifier.optional
//                                                        ^^^^^^ support.type.primitive
//                                                                ^^^ keyword.operator.spread
//                                                                   ^^ meta.function.parameters
//                                                                                 ^^^^^^^ keyword.operator.word
//                                                                                           ^^ keyword.operator.word
//                                                                                              ^^^ support.type
//                                                                                                     ^ meta.block punctuation.section.block.begin
//                                                                                                       ^^^^^^ keyword.control.flow
//                                                                                                               ^ keyword.operator.non-null
//                                                                                                                 ^ keyword.operator.arithmetic
const g = async <T,>(x: T, cb: (e: Error) => void): Promise<T> => { await x; };
//    ^ entity.name.function
//        ^^^^^ storage.modifier.async
//               ^ meta.generic support.type
//                   ^ variable.parameter
//                         ^^ variable.parameter
//                              ^^ variable.parameter, punctuation.separator.type
//                                 ^^^^^ support.type
//                                        ^^ storage.type.function.arrow
//                                           ^^^^ support.type.primitive
//                                                  ^^^^^^^ support.type
//                                                             ^^ storage.type.function.arrow
//                                                                  ^^^^^ keyword.control.flow
const h = (
  aa: string,
//^^ variable.parameter
//    ^^^^^^ support.type.primitive
  bb?: Map<string, number>,
//^^ variable.parameter
//     ^^^ support.type
//                 ^^^^^^ meta.generic support.type.primitive
): Promise<void> => {
// ^^^^^^^ support.type
//               ^^ storage.type.function.arrow
  return <Foo>bar < baz;
//        ^^^ meta.generic support.type
//            ^^^ variable.other.readwrite
//                ^ keyword.operator.comparison
}
interface Shape<T> extends Base<T>, ns.Other {
// <--------- storage.type.interface
//        ^^^^^ entity.name.interface
//              ^ meta.generic support.type
//                 ^^^^^^^ storage.modifier.extends
//                         ^^^^ entity.other.inherited-class
//                                     ^^^^^ entity.other.inherited-class
  readonly name?: string;
//^^^^^^^^ storage.modifier
//         ^^^^ variable.other.member
//             ^ storage.modifier.optional
//              ^ punctuation.separator.type
//                ^^^^^^ support.type.primitive
//                      ^ punctuation.terminator
  [key: string]: unknown
// ^^^ variable.parameter
//      ^^^^^^ support.type.primitive
//               ^^^^^^^ support.type.primitive
  method<U>(x: U, y?: 'a' | "b"): this is Foo
//^^^^^^ entity.name.function
//          ^ variable.parameter
//                    ^^^ string.quoted.single
//                                ^^^^ variable.language
//                                     ^^ keyword.operator.word
  cb: (a: number) => void
//^^ entity.name.function
//     ^ variable.parameter
//                ^^ storage.type.function.arrow
  new (x: string): Shape
//^^^ keyword.operator.word.new
  if: boolean
//^^ variable.other.member - keyword
}
type Mapped<T> = { readonly [K in keyof T as `get${K & string}`]-?: T[K] } & Partial<X>
// <---- storage.type.type
//   ^^^^^^ entity.name.type
//             ^ keyword.operator.assignment
//                 ^^^^^^^^ storage.modifier
//                           ^ variable.parameter
//                             ^^ keyword.operator.word
//                                ^^^^^ keyword.operator.word
//                                        ^^ keyword.operator.word
//                                            ^^^ string.quoted.other
//                                                              ^ storage.modifier.optional
//                                                                  ^^ - string
//                                                                         ^ keyword.operator.type
//                                                                           ^^^^^^^ support.type
type Cond<T> = T extends (infer U)[] ? U : T extends string
//               ^^^^^^^ keyword.operator.word
//                        ^^^^^ keyword.operator.word
//                              ^ support.type
//                                   ^ keyword.operator.ternary
//                                       ^ keyword.operator.ternary
//                                                   ^^^^^^ support.type.primitive
  ? 1
//^ keyword.operator.ternary
//  ^ constant.numeric
  : never;
//  ^^^^^ support.type.primitive
type Union =
  | 'a'
//^ keyword.operator.type
//  ^^^ string.quoted.single
  | { kind: 'b' }
//    ^^^^ variable.other.member
const after = 1 < 2;
// <----- storage.type
//              ^ keyword.operator.comparison
const enum Color { Red = 1, Green = 'g' }
// <----- storage.modifier
//    ^^^^ storage.type.enum
//         ^^^^^ entity.name.enum
//                 ^^^ entity.name.constant
//                       ^ constant.numeric
//                          ^^^^^ entity.name.constant
declare module 'x' { namespace A.B { } }
// <------- storage.modifier
//      ^^^^^^ storage.type.namespace
//             ^^^ string.quoted.single
//                   ^^^^^^^^^ storage.type.namespace
//                             ^ entity.name.namespace
abstract class Foo<T> extends Bar<T> implements Baz, Qux<T> {
// <-------- storage.modifier
//       ^^^^^ storage.type.class
//             ^^^ entity.name.class
//                            ^^^ entity.other.inherited-class
//                                   ^^^^^^^^^^ storage.modifier
//                                              ^^^ entity.other.inherited-class
//                                                   ^^^ entity.other.inherited-class
  private readonly x: Map<string, number[]> = new Map<string, number[]>()
//^^^^^^^ storage.modifier
//        ^^^^^^^^ storage.modifier
//                 ^ variable.other.member
//                    ^^^ support.type
//                                          ^ keyword.operator.assignment
//                                                ^^^ support.class
//                                                    ^^^^^^ meta.generic support.type.primitive
  y!: string
//^ variable.other.member
// ^ storage.modifier.optional
  static z?: number = 1
//^^^^^^ storage.modifier
//        ^ storage.modifier.optional
//           ^^^^^^ support.type.primitive
  constructor(private a: string, public readonly b = 1) { super(); }
//^^^^^^^^^^^ entity.name.function.constructor
//            ^^^^^^^ storage.modifier
//                    ^^ variable.parameter, punctuation.separator.type
//                                               ^^^ meta.function.parameters
//                                                        ^^^^^ variable.language
  protected abstract go(): void;
//          ^^^^^^^^ storage.modifier
//                   ^^ entity.name.function
//                         ^^^^ support.type.primitive
  get v(): T { return this.#p as T; }
//^^^ storage.modifier
//    ^ entity.name.function
//         ^ support.type
//                         ^^ variable.other.member
//                            ^^ keyword.operator.word
//                               ^ support.type
  @Input() name: string;
// ^^^^^ variable.annotation
//         ^^^^ variable.other.member
  async *gen<T>(x: T): AsyncGenerator<T> {}
//^^^^^ storage.modifier
//       ^^^ entity.name.function
//                     ^^^^^^^^^^^^^^ support.type
}
const v = foo<string>(x) as const satisfies Y;
//        ^^^ variable.function
//            ^^^^^^ meta.generic support.type.primitive
//                       ^^ keyword.operator.word
//                          ^^^^^ storage.modifier
//                                ^^^^^^^^^ keyword.operator.word
//                                          ^ support.type
if (a < b && c > (d)) { x = a as unknown as B[]; }
//    ^ keyword.operator.comparison
//             ^ keyword.operator.comparison
//                               ^^^^^^^ support.type.primitive
//                                          ^ support.type
//                                            ^ punctuation.section.brackets.end
const r = cond ? (a) : b, o = { k: v as T, m<T>(x: T): void {} };
//             ^ keyword.operator.ternary
//                   ^ keyword.operator.ternary
//                              ^ variable.other.member
//                                      ^ support.type
//                                         ^ entity.name.function
//                                                     ^^^^ support.type.primitive
for (const [k, w] of Object.entries(x)) { y!.z!(1); }
//                ^^ keyword.operator.word
//                                         ^ keyword.operator.non-null
//                                           ^ variable.function
const e3 = <div className="x">{n < 2 ? <b/> : 'it'} it's</div>;
//          ^^^ entity.name.tag
//              ^^^^^^^^^ entity.other.attribute-name
//                        ^^^ string.quoted.double
//                               ^ keyword.operator.comparison
//                                      ^ entity.name.tag
//                                                  ^^^^ - string
//                                                        ^^^ entity.name.tag
let fn: new (...args: any[]) => T = x;
//      ^^^ keyword.operator.word
//              ^^^^ variable.parameter
//                           ^^ storage.type.function.arrow
//                                ^ keyword.operator.assignment
let last: typeof import('x').y; z = /re/g;
//        ^^^^^^ keyword.operator.word
//               ^^^^^^ keyword.control.import
//                                  ^^^^ string.regexp
