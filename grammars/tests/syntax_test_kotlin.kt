// SYNTAX TEST "Kotlin.sublime-syntax"
// <- comment.line.double-slash punctuation.definition.comment
/* a /* nested " */ block // */ package com.example
// <- comment.block
//                     ^^^^^ comment.block
package com.example.app
// <- keyword.declaration.namespace
//      ^^^^^^^^^^^^^^^ entity.name.namespace
/** Doc it's @param name x */ val a = 1
// <- comment.block.documentation
//           ^^^^^^ keyword.other.documentation
//                  ^^^^ variable.parameter
//                            ^^^ keyword.declaration - comment
import a.b.C as D // "why
// <- keyword.control.import
//         ^ support.type
//           ^^ keyword.operator.word
//                ^^^^^^^ comment.line
import kotlin.math.*
//                 ^ keyword.operator.wildcard
@file:JvmName("a)b") @Suppress("x", "y")
// <- meta.annotation punctuation.definition.annotation
//^^^ keyword.other
//    ^^^^^^^ variable.annotation
//            ^^^^^ meta.annotation string.quoted.double
//                    ^^^^^^^^ variable.annotation
data class Foo<out T : Any>(val x: Int, private var y: String? = "z") : Base<T>(x), Thing by z {
// <- storage.modifier
//   ^^^^^ keyword.declaration.class storage.type.class
//         ^^^ entity.name.class
//            ^ punctuation.definition.generic.begin
//             ^^^ storage.modifier
//                 ^ support.type
//                          ^^^ keyword.declaration
//                              ^ variable.parameter
//                                 ^^^ support.type
//                                      ^^^^^^^ storage.modifier
//                                                  ^ variable.parameter
//                                                               ^^^ string.quoted.double
//                                                                      ^^^^ entity.other.inherited-class
//                                                                                  ^^^^^ entity.other.inherited-class
//                                                                                        ^^ keyword.other
    companion object { const val MAX_SIZE = 1_000L }
//  ^^^^^^^^^ storage.modifier
//            ^^^^^^ keyword.declaration
//                     ^^^^^ storage.modifier
//                               ^^^^^^^^ constant.other
//                                          ^^^^^^ constant.numeric.integer
//                                               ^ storage.type.numeric
    init { run() }
//  ^^^^ keyword.declaration
//         ^^^ variable.function
    override suspend fun <K> List<K>.get(a: Map<K, T>, vararg b: (Int) -> Unit): T? where K : Any {
//  ^^^^^^^^ storage.modifier
//           ^^^^^^^ storage.modifier
//                   ^^^ keyword.declaration.function storage.type.function
//                       ^ punctuation.definition.generic.begin
//                           ^^^^ support.type
//                                   ^^^ entity.name.function
//                                       ^ variable.parameter
//                                                     ^^^^^^ storage.modifier
//                                                            ^ variable.parameter
//                                                                     ^^ keyword.operator.arrow
//                                                                                  ^^^^^ keyword.other
        val s = "a \n \u0041 \" $x ${y.foo("q") + 1} \q \$z // no"
//      ^^^ keyword.declaration.variable storage.type
//              ^ string.quoted.double punctuation.definition.string.begin
//                 ^^ constant.character.escape
//                    ^^^^^^ constant.character.escape
//                           ^^ constant.character.escape
//                              ^^ variable.other
//                                 ^^ punctuation.section.interpolation.begin
//                                   ^ meta.interpolation - string
//                                     ^^^ variable.function
//                                         ^^^ meta.interpolation string.quoted.double
//                                                ^ constant.numeric
//                                                 ^ punctuation.section.interpolation.end
//                                                   ^^ invalid.illegal
//                                                      ^^ constant.character.escape
//                                                          ^^^^^ string.quoted.double - comment
        val r = """raw \n "q" ${z} $w // no""" + 'c' + '\'' + '"'
//              ^^^ string.quoted.triple
//                     ^^ string.quoted.triple - constant
//                              ^ meta.interpolation - string
//                                 ^^ variable.other
//                                    ^^^^^ string.quoted.triple - comment
//                                               ^^^ string.quoted.single
//                                                      ^^ constant.character.escape
//                                                            ^^^ string.quoted.single
        "unterminated
        val n = 0xFFL + 0b1010 + 1.5e-3f + .5 + 1e10 + 3f + 10u
//      ^^^ keyword.declaration - string
//              ^^ constant.numeric.integer.hexadecimal
//                      ^^^^^^ constant.numeric.integer.binary
//                               ^^^^^^^ constant.numeric.float
//                                         ^^ constant.numeric.float
//                                              ^^^^ constant.numeric.float
//                                                     ^^ constant.numeric.float
//                                                          ^^^ constant.numeric.integer
        if (a < b && c > d || !e) return null else throw Err("x")
//      ^^ keyword.control.conditional
//            ^ keyword.operator.comparison
//                ^^ keyword.operator.logical
//                                ^^^^^^ keyword.control.flow
//                                       ^^^^ constant.language
//                                            ^^^^ keyword.control.conditional
//                                                 ^^^^^ keyword.control.exception
        outer@ for (i in 0..10) { break@outer }
//      ^^^^^ entity.name.label
//             ^^^ keyword.control.loop
//                    ^^ keyword.operator.word
//                       ^ constant.numeric.integer
//                        ^^ keyword.operator.range
//                                ^^^^^ keyword.control.flow
//                                     ^^^^^^ variable.label
        xs?.map { a, b -> a + b }.filter { it > 1 }.let(::println)!!.size ?: 3
//        ^^ punctuation.accessor
//          ^^^ variable.function
//                ^ variable.parameter
//                   ^ variable.parameter
//                     ^^ keyword.operator.arrow
//                                ^^^^^^ variable.function
//                                         ^^ variable.language
//                                                      ^^ punctuation.accessor
//                                                        ^^^^^^^ variable.function
//                                                                ^^ keyword.operator
//                                                                   ^^^^ variable.other.member
//                                                                        ^^ keyword.operator
        val m = mutableMapOf<String, List<Int>>(key = 1); Foo::class; x as? Int
//              ^^^^^^^^^^^^ variable.function
//                          ^ punctuation.definition.generic.begin
//                                           ^ punctuation.definition.generic.end
//                                              ^^^ variable.parameter
//                                                             ^^^^^ variable.language
//                                                                      ^^^ keyword.operator.word
        when (o) { is Int -> 1; !in z -> 2; else -> `my fun`(this@Foo) }
//      ^^^^ keyword.control.conditional
//                 ^^ keyword.operator.word
//                        ^^ keyword.operator.arrow
//                              ^^^ keyword.operator.word
//                                                  ^^^^^^^^ variable.function
//                                                           ^^^^ variable.language
//                                                               ^^^^ variable.label
        val data = open.value + data; val lazyV by lazy { 1 }
//          ^^^^ - storage
//                 ^^^^ - storage
//                      ^^^^^ variable.other.member
//                                              ^^ keyword.other
//                                                 ^^^^ variable.function
        try { x++ } catch (e: Exception) { } finally { }
//      ^^^ keyword.control.exception
//             ^^ keyword.operator.arithmetic
//                  ^^^^^ keyword.control.exception
//                            ^^^^^^^^^ support.type
//                                           ^^^^^^^ keyword.control.exception
    }
    var p: Int = 1
        get() = field
//      ^^^ keyword.declaration
//              ^^^^^ variable.language
        private set
//      ^^^^^^^ storage.modifier
}
// <- punctuation.section.block.end
enum class Color { RED, GREEN }
// <- storage.modifier
//         ^^^^^ entity.name.enum
//                 ^^^ entity.name.constant
fun interface Run : Base { fun run() }
//  ^^^^^^^^^ keyword.declaration
//            ^^^ entity.name.interface
//                  ^^^^ entity.other.inherited-class
//                             ^^^ entity.name.function
typealias Name = Map<String, Int>
// <- keyword.declaration
//        ^^^^ entity.name.type
//                   ^^^^^^ support.type
val o = object : Thing() { }
//      ^^^^^^ keyword.declaration
//               ^^^^^ entity.other.inherited-class
enum class Planet(val mass: Double) : Body { EARTH(5.97e24), MARS; fun hi() = MARS }
//         ^^^^^^ entity.name.enum
//                    ^^^^ variable.parameter
//                                    ^^^^ entity.other.inherited-class
//                                           ^^^^^ entity.name.constant
//                                                           ^^^^ entity.name.constant
//                                                                     ^^ entity.name.function
//                                                                            ^^^^ constant.other
typealias Pred<T> = (T) -> Boolean
//            ^ punctuation.definition.generic.begin
