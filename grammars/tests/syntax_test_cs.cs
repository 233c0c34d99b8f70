// SYNTAX TEST "C#.sublime-syntax"
// <- comment.line.double-slash punctuation.definition.comment
/* a "block // */ using System;
// <- comment.block
/// <summary cref="X">it's</summary>
// <- comment.line.documentation
//   ^^^^^^^ entity.name.tag
//           ^^^^ entity.other.attribute-name
//                ^^^ string.quoted.double
using System.Text; // "why
// <- keyword.control.import
//    ^^^^^^ variable.other.namespace
//                 ^^^^^^^ comment.line
using static System.Math;
//    ^^^^^^ storage.modifier
using Alias = System.Collections.Generic.List<int>;
//    ^^^^^ entity.name.type
//                                            ^^^ storage.type.primitive
#if DEBUG && !X // note
// <- meta.preprocessor punctuation.definition.preprocessor
//^ keyword.control.preprocessor
//  ^^^^^ constant.other
//              ^^^^^^^ comment.line
#region don't "worry
//      ^^^^^^^^^^^^ string.unquoted
#endregion
#endif
[assembly: AssemblyTitle("a]b")]
// <- meta.annotation punctuation.section.brackets.begin
//^^^^^^^ keyword.other
//         ^^^^^^^^^^^^^ variable.annotation
//                       ^^^^^ string.quoted.double
//                             ^ punctuation.section.brackets.end
namespace A.B {
// <- keyword.declaration.namespace
//        ^^^ entity.name.namespace
[Serializable, Obsolete("x", IsError = true)]
// <- meta.annotation
//^^^^^^^^^^ variable.annotation
//             ^^^^^^^^ variable.annotation
//                           ^^^^^^^ variable.parameter
public sealed partial class Foo<T> : Base<T>, IThing where T : class, new() {
// <- storage.modifier
//     ^^^^^^ storage.modifier
//            ^^^^^^^ storage.modifier
//                    ^^^^^ keyword.declaration.class storage.type.class
//                          ^^^ entity.name.class
//                             ^ punctuation.definition.generic.begin
//                              ^ support.type
//                                   ^^^^ entity.other.inherited-class
//                                            ^^^^^^ entity.other.inherited-class
//                                                   ^^^^^ keyword.other
//                                                             ^^^^^ storage.modifier
//                                                                    ^^^ keyword.operator.word
    private const int MAX_SIZE = 1_000, B = F(1);
//  ^^^^^^^ storage.modifier
//          ^^^^^ storage.modifier
//                ^^^ storage.type.primitive
//                    ^^^^^^^^ constant.other
//                               ^^^^^ constant.numeric.integer
//                                          ^ variable.function - entity
    public string? Name { get; private set; } = "x";
//         ^^^^^^ storage.type.primitive
//                 ^^^^ variable.other.member
//                        ^^^ keyword.declaration
//                             ^^^^^^^ storage.modifier
//                                     ^^^ keyword.declaration
    public int Twice => Compute(2);
//             ^^^^^ variable.other.member
//                   ^^ keyword.operator.arrow
//                      ^^^^^^^ variable.function - entity
    public Foo(int a, [FromBody] List<T> list, ref string s, params object[] r) : base(a) { }
//         ^^^ entity.name.function
//                 ^ variable.parameter
//                     ^^^^^^^^ variable.annotation
//                               ^^^^ support.type
//                                       ^^^^ variable.parameter
//                                             ^^^ storage.modifier
//                                                                  ^^^^^^ storage.type.primitive
//                                                                           ^ variable.parameter
//                                                                                ^^^^ variable.language
    public static Foo<T> operator +(Foo<T> x, Foo<T> y) => x;
//                       ^^^^^^^^ keyword.declaration
//                                ^ entity.name.function
//                                         ^ variable.parameter
    public T this[int i] { get => items[i]; }
//           ^^^^ variable.language
//                    ^ variable.parameter
//                         ^^^ keyword.declaration
    async Task<Dictionary<string, T>> GetAll<K>(K key) where K : IThing {
//  ^^^^^ storage.modifier
//        ^^^^ support.type
//                        ^^^^^^ storage.type.primitive
//                                    ^^^^^^ entity.name.function
//                                                ^^^ variable.parameter
//                                                     ^^^^^ keyword.other
        var s = "a \n \u0041 \" {0:N2} \q // no"u8;
//      ^^^ storage.type
//              ^ string.quoted.double punctuation.definition.string.begin
//                 ^^ constant.character.escape
//                    ^^^^^^ constant.character.escape
//                           ^^ constant.character.escape
//                              ^^^^^^ constant.other.placeholder
//                                     ^^ invalid.illegal
//                                        ^^^^^ string.quoted.double - comment
//                                              ^^ storage.type.string
        var v = @"c:\dir ""x"" // no" + 'c' + '\'' + '"';
//              ^ storage.type.string
//                ^^^^^^^ string.quoted.double.raw - constant.character.escape
//                       ^^ constant.character.escape
//                             ^^^^^ string.quoted.double.raw - comment
//                                      ^^^ string.quoted.single
//                                             ^^ constant.character.escape
//                                                   ^^^ string.quoted.single
        var i = $"a {x.Foo("b"),-5:N2} {{no}} {(y ? 1 : 2)} end" + $@"q {z} "" \";
//               ^ string.quoted.double
//                  ^ punctuation.section.interpolation.begin
//                   ^ meta.interpolation - string
//                     ^^^ meta.interpolation variable.function
//                         ^^^ meta.interpolation string.quoted.double
//                              ^^ constant.numeric
//                                 ^^ constant.other.format
//                                     ^^ constant.character.escape
//                                                  ^ constant.numeric
//                                                          ^^^ string.quoted.double
//                                                                 ^^ storage.type.string
//                                                                       ^ meta.interpolation - string
//                                                                          ^^ constant.character.escape
//                                                                             ^ string.quoted.double - constant
        var r = """a "quoted" {x} \n""" + $"""b {y} "" """ + $$"""{c} {{d}} e""";
//              ^^^ string.quoted.triple punctuation.definition.string.begin
//                            ^^^^^^ string.quoted.triple - meta.interpolation - constant
//                                               ^ meta.interpolation - string
//                                                ^ punctuation.section.interpolation.end
//                                                                ^^^ string.quoted.triple
//                                                                      ^ meta.interpolation - string
//                                                                          ^ string.quoted.triple
        "unterminated
        int n = 0xFFL + 0b1010 + 1.5e-3f + .5 + 1e10 + 3m + 10ul;
//      ^^^ storage.type.primitive - string
//              ^^ constant.numeric.integer.hexadecimal
//                      ^^^^^^ constant.numeric.integer.binary
//                               ^^^^^^^ constant.numeric.float
//                                         ^^ constant.numeric.float
//                                              ^^^^ constant.numeric.float
//                                                     ^^ constant.numeric.float
//                                                          ^^^^ constant.numeric.integer
        if (a < b && c > d) return null; else throw new Err("x");
//      ^^ keyword.control.conditional
//            ^ keyword.operator.comparison
//                     ^ keyword.operator.comparison
//                          ^^^^^^ keyword.control.flow
//                                 ^^^^ constant.language
//                                            ^^^^^ keyword.control.exception
//                                                  ^^^ keyword.operator.word
        foreach (var q in list) { await q?.RunAsync<int>(x => x.Y ?? 1); }
//      ^^^^^^^ keyword.control.loop
//                     ^^ keyword.operator.word
//                                ^^^^^ keyword.control.flow
//                                       ^^ punctuation.accessor
//                                         ^^^^^^^^ variable.function
//                                                 ^ punctuation.definition.generic.begin
//                                                       ^ variable.parameter
//                                                              ^ variable.other.member
//                                                                ^^ keyword.operator
        var w = from p in ps where p.Age > 3 orderby p.Name select p;
//              ^^^^ keyword.control.query
//                           ^^^^^ keyword.control.query
//                                           ^^^^^^^ keyword.control.query
//                                                          ^^^^^^ keyword.control.query
        switch (o) { case int k when k > 0: goto done; default: break; }
//                   ^^^^ keyword.control.conditional
//                              ^^^^ keyword.control.conditional
//                                               ^^^^ variable.label
//                                                     ^^^^^^^ keyword.control.conditional
        done:
//      ^^^^ entity.name.label
        var z = o is not null and Foo { X: 1 } ? typeof(int) : default;
//                ^^ keyword.operator.word
//                   ^^^ keyword.operator.word
//                            ^^^ keyword.operator.word
//                                               ^^^^^^ keyword.operator.word
//                                                             ^^^^^^^ constant.language
        using (var f = File.Open("x")) { lock (@class) { yield return 1; } }
//      ^^^^^ keyword.control
//                     ^^^^ support.type
//                          ^^^^ variable.function
//                                             ^^^^^^ variable.other
//                                                       ^^^^^ keyword.control.flow
    }
}
enum Color : byte { Red = 1, Green }
// <- keyword.declaration.enum
//   ^^^^^ entity.name.enum
//           ^^^^ storage.type.primitive
//                  ^^^ entity.name.constant
//                           ^^^^^ entity.name.constant
public record struct Point(int X, int Y);
//     ^^^^^^ storage.type.class
//                   ^^^^^ entity.name.class
//                             ^ variable.parameter
delegate void Handler(object sender);
// <- keyword.declaration
//            ^^^^^^^ entity.name.function
}
// <- punctuation.section.block.end
class More {
    public static implicit operator int(Foo<T> c) => c.Count;
//                                  ^^^ entity.name.function
//                                             ^ variable.parameter
    public decimal Price
//                 ^^^^^ variable.other.member
    {
        get => new List<int>(new Foo(x is IOException));
//                 ^^^^ support.type
//                               ^^^ support.type
//                                        ^^^^^^^^^^^ support.type
    }
    public static
        int Zero() { }
//          ^^^^ entity.name.function
}
