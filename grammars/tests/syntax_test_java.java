// SYNTAX TEST "Java.sublime-syntax"
// <- comment.line.double-slash punctuation.definition.comment
/* a "block // */ package com.example.app;
// <- comment.block
//                ^^^^^^^ keyword.declaration.namespace - comment
//                        ^^^^^^^^^^^^^^^ entity.name.namespace
/** Doc {@link Foo} @param x it's @return */ import java.util.*;
// <- comment.block.documentation
//       ^^^^^ keyword.other.documentation
//                  ^^^^^^ keyword.other.documentation
//                         ^ variable.parameter
//                                           ^^^^^^ keyword.control.import - comment
//                                                            ^ keyword.operator.wildcard
import static java.util.Map.Entry;
//     ^^^^^^ storage.modifier
//                          ^^^^^ support.type
/**/ import a.B;
//   ^^^^^^ keyword.control.import - comment
@SuppressWarnings({"unchecked", "a)b"}) @Deprecated
// <- meta.annotation punctuation.definition.annotation
//^^^^^^^^^^^^^^^ variable.annotation
//                 ^^^^^^^^^^^ meta.annotation string.quoted.double
//                                    ^ punctuation.section.group.end
//                                       ^^^^^^^^^^ variable.annotation
public abstract class Foo<T extends Bar<T>> extends Base<String> implements A, b.C {
// <- storage.modifier
//     ^^^^^^^^ storage.modifier
//              ^^^^^ keyword.declaration.class storage.type.class
//                    ^^^ entity.name.class
//                       ^ punctuation.definition.generic.begin
//                        ^ support.type
//                          ^^^^^^^ storage.modifier
//                                        ^ punctuation.definition.generic.end
//                                          ^^^^^^^ keyword.declaration.extends
//                                                  ^^^^ entity.other.inherited-class
//                                                       ^^^^^^ support.type
//                                                                          ^ entity.other.inherited-class
//                                                                               ^ entity.other.inherited-class
    private static final long MAX_SIZE = 1_000L, b = call(1);
//  ^^^^^^^ storage.modifier
//                       ^^^^ storage.type.primitive
//                            ^^^^^^^^ constant.other
//                                       ^^^^^^ constant.numeric.integer
//                                            ^ storage.type.numeric
//                                                   ^^^^ variable.function - entity
    public Foo(final int a, String... names) throws IOException { this.a = a; }
//         ^^^ entity.name.function
//             ^^^^^ storage.modifier
//                   ^^^ storage.type.primitive
//                       ^ variable.parameter
//                          ^^^^^^ support.type
//                                    ^^^^^ variable.parameter
//                                           ^^^^^^ keyword.declaration
//                                                  ^^^^^^^^^^^ support.type
//                                                                ^^^^ variable.language
//                                                                     ^ variable.other.member
    @Override public <K> Map<String, List<K>> get(Map<K, ? super T> m) {
//   ^^^^^^^^ variable.annotation
//                   ^ punctuation.definition.generic.begin
//                       ^^^ support.type
//                                            ^^^ entity.name.function
//                                                       ^ keyword.operator.wildcard
//                                                                  ^ variable.parameter
        String s = "a \n \u0041 \101 \" %5d \q // no";
//                 ^ string.quoted.double punctuation.definition.string.begin
//                    ^^ constant.character.escape
//                       ^^^^^^ constant.character.escape
//                              ^^^^ constant.character.escape
//                                   ^^ constant.character.escape
//                                      ^^^ constant.other.placeholder
//                                          ^^ invalid.illegal
//                                             ^^^^^ string.quoted.double - comment
        char c = '\'', d = '"', e = 'x';
//               ^^^^ string.quoted.single
//                ^^ constant.character.escape
//                         ^^^ string.quoted.single
        "unterminated
        int n = 0xFFL + 0b1010 + 017 + 1.5e-3f + .5 + 1e10 + 3d + 0x1.8p3 + 1.;
//      ^^^ storage.type.primitive - string
//              ^^ constant.numeric.integer.hexadecimal
//                      ^^^^^^ constant.numeric.integer.binary
//                               ^^^ constant.numeric.integer.octal
//                                     ^^^^^^^ constant.numeric.float
//                                               ^^ constant.numeric.float
//                                                    ^^^^ constant.numeric.float
//                                                           ^^ constant.numeric.float
//                                                                ^^^^^^^ constant.numeric.float
//                                                                          ^^ constant.numeric.float
        if (a < b && c >>> 2 != d) return null; else throw new Exception("x");
//      ^^ keyword.control.conditional
//            ^ keyword.operator.comparison
//                ^^ keyword.operator.logical
//                     ^^^ keyword.operator.bitwise
//                                 ^^^^^^ keyword.control.flow
//                                        ^^^^ constant.language
//                                              ^^^^ keyword.control.conditional
//                                                   ^^^^^ keyword.control.exception
//                                                         ^^^ keyword.operator.word
//                                                             ^^^^^^^^^ support.type
        for (var x : list) { x.stream().map(y -> y + 1).forEach(System.out::println); }
//      ^^^ keyword.control.loop
//           ^^^ storage.type
//                             ^^^^^^ variable.function
//                                          ^ variable.parameter
//                                            ^^ keyword.operator.arrow
//                                                                     ^^^ variable.other.member
//                                                                        ^^ punctuation.accessor
//                                                                          ^^^^^^^ variable.function
        outer: while (true) { break outer; }
//      ^^^^^ entity.name.label
//             ^^^^^ keyword.control.loop
//                    ^^^^ constant.language
//                                  ^^^^^ variable.label
        switch (o) { case Circle r when r > 0 -> 1; default -> yield 2; }
//                   ^^^^ keyword.control.conditional
//                        ^^^^^^ support.type
//                                 ^^^^ keyword.control.conditional
//                                                  ^^^^^^^ keyword.control.conditional
//                                                             ^^^^^ keyword.control.flow
        Runnable q = new Runnable() { public void run() { go(); } };
//                       ^^^^^^^^ support.type
//                                                ^^^ entity.name.function
//                                                        ^^ variable.function - entity
        int[] z = new int[3]; Class<?> k = Foo.class; o instanceof String t;
//                    ^^^ storage.type.primitive
//                            ^^^^^ support.type
//                                             ^^^^^ variable.language
//                                                      ^^^^^^^^^^ keyword.operator.word
        try { x = a ? b : c; } catch (E | F e) { } finally { z[0] += 1; i++; }
//      ^^^ keyword.control.exception
//                  ^ keyword.operator.ternary
//                             ^^^^^ keyword.control.exception
//                                                                ^^ keyword.operator.assignment
    }
    abstract int later();
//  ^^^^^^^^ storage.modifier
//               ^^^^^ entity.name.function
    enum Color { RED(1), GREEN { int f() { return 1; } }; int v; Color(int v) { } }
//       ^^^^^ entity.name.enum
//               ^^^ entity.name.constant
//                       ^^^^^ entity.name.constant
//                                   ^ entity.name.function
//                                                               ^^^^^ entity.name.function
    sealed interface Shape permits Sq, Ci {}
//  ^^^^^^ storage.modifier
//         ^^^^^^^^^ storage.type
//                         ^^^^^^^ keyword.declaration
    record Point(int x, int y) implements S { }
//  ^^^^^^ storage.type.class
//         ^^^^^ entity.name.class
//                   ^ variable.parameter
    @interface Note { String value() default "x"; }
//  ^^^^^^^^^^ storage.type
//             ^^^^ entity.name.interface
//                           ^^^^^ entity.name.function
//                                   ^^^^^^^ keyword.declaration
    static { String t = """
       text "quoted" \n // no
//     ^^^^^^^^^^^^^ string.quoted.triple
//                   ^^ constant.character.escape
//                      ^^ string.quoted.triple - comment
       """; run(); }
//     ^^^ string.quoted.triple punctuation.definition.string.end
//          ^^^ variable.function
}
// <- punctuation.section.block.end
