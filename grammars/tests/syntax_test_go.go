// SYNTAX TEST "Go.sublime-syntax"
// <- comment.line.double-slash punctuation.definition.comment
//go:build linux && !cgo
// <- comment.line
//^^^^^^^^ keyword.other.directive
/* a "block */ package main
// <- comment.block
//             ^^^^^^^ keyword.declaration.namespace - comment
//                     ^^^^ entity.name.namespace
import "fmt" // it's
// <- keyword.control.import
//     ^^^^^ string.quoted.double
//           ^^^^^^^ comment.line
import (
    str "strings"
//  ^ entity.name.namespace
//      ^^^^^^^^^ string.quoted.double
    _ "net/http/pprof"
//    ^^^^^^^^^ string.quoted.double
)
// <- punctuation.section.group.end
type Point struct {
// <- keyword.declaration.type storage.type
//   ^^^^^ entity.name.type
//         ^^^^^^ keyword.declaration storage.type
    X, Y float64 `json:"x,omitempty"`
//  ^ variable.other.member
//     ^ variable.other.member
//       ^^^^^^^ storage.type.primitive
//               ^^^^^^^^^^^^^^^^^^^^ string.quoted.raw
    *Embedded
//  ^ keyword.operator
//   ^^^^^^^^ support.type
    m map[string][]int
//  ^ variable.other.member
//    ^^^ storage.type
//        ^^^^^^ storage.type.primitive
    f func(a int) error
//    ^^^^ storage.type.function
}
// <- punctuation.section.block.end
type Area interface {
//        ^^^^^^^^^ storage.type
    Area(scale int) float64
//  ^^^^ entity.name.function
//       ^^^^^ variable.parameter
//                  ^^^^^^^ storage.type.primitive
    ~int | ~string
//  ^ keyword.operator
//   ^^^ storage.type.primitive
}
type Pair[K comparable, V any] struct { key K }
//   ^^^^ entity.name.type
//          ^^^^^^^^^^ storage.type.primitive
type ID = int
//   ^^ entity.name.type
//      ^ keyword.operator.assignment
//        ^^^ storage.type.primitive
type (
    A int
//  ^ entity.name.type
    B struct { x int }
//  ^ entity.name.type
)
const Pi, MAX_LEN = 3.14, 1 << 10
// <- keyword.declaration.constant
//        ^^^^^^^ constant.other
//                  ^^^^ constant.numeric.float
//                          ^^ keyword.operator.bitwise
var x, y int = 0xFF, 0b1010
// <- keyword.declaration.variable
//       ^^^ storage.type.primitive
//             ^^ constant.numeric.integer.hexadecimal
//                   ^^^^^^ constant.numeric.integer.binary
func (p *Point) Scale(by float64, names ...string) (n int, err error) {
// <- keyword.declaration.function storage.type.function
//    ^ variable.parameter
//       ^^^^^ support.type
//              ^^^^^ entity.name.function
//                    ^^ variable.parameter
//                       ^^^^^^^ storage.type.primitive
//                                      ^^^ keyword.operator.variadic
//                                                  ^ variable.parameter
//                                                         ^^^ variable.parameter
    return n, nil
//  ^^^^^^ keyword.control.flow
//            ^^^ constant.language
}
func Map[T, U any](s []T, f func(T) U) []U {
//   ^^^ entity.name.function
//                 ^ variable.parameter
//                          ^^^^ storage.type.function
    s := "a \n \x41 \u00e9 \" %d %-5.2f %% \q // no"
//       ^ string.quoted.double punctuation.definition.string.begin
//          ^^ constant.character.escape
//             ^^^^ constant.character.escape
//                  ^^^^^^ constant.character.escape
//                         ^^ constant.character.escape
//                            ^^ constant.other.placeholder
//                               ^^^^^^ constant.other.placeholder
//                                      ^^ constant.character.escape
//                                         ^^ invalid.illegal
//                                            ^^^^^ string.quoted.double - comment
    r := `raw \n "x" // no`
//       ^^^^^^^^^^^^^^^^^^ string.quoted.raw - comment
    c := 'a' + '\'' + '\x00' + '"'
//       ^^^ string.quoted.single
//              ^^ constant.character.escape
//                     ^^^^ constant.character.escape
//                             ^^^ string.quoted.single
    "unterminated
    n := 1_000 + 0o17 + 017 + 1e-9 + .5 + 2i + 0x1p-2 + 1.
//  ^ - string
//       ^^^^^ constant.numeric.integer.decimal
//               ^^^^ constant.numeric.integer.octal
//                      ^^^ constant.numeric.integer.octal
//                            ^^^^ constant.numeric.float
//                                   ^^ constant.numeric.float
//                                        ^ constant.numeric.integer.decimal
//                                         ^ storage.type.numeric
//                                             ^^^^^^ constant.numeric.float.hexadecimal
//                                                      ^^ constant.numeric.float
    for i, v := range s { go f(i); defer p.Scale(v) }
//  ^^^ keyword.control.loop
//           ^^ keyword.operator.assignment
//              ^^^^^ keyword.control.loop
//                        ^^ keyword.control.flow
//                           ^ variable.function
//                                         ^^^^^ variable.function
    if a < b && c != d { ch <- 1; x = <-ch } else { m[k] &^= 3 }
//  ^^ keyword.control.conditional
//       ^ keyword.operator.comparison
//           ^^ keyword.operator.logical
//                          ^^ keyword.operator.channel
//                                           ^^^^ keyword.control.conditional
//                                                       ^^^ keyword.operator.assignment
    switch t := x.(type) { case int, *Point: fallthrough; default: }
//  ^^^^^^ keyword.control.conditional
//                 ^^^^ storage.type
//                              ^^^ storage.type.primitive
//                                           ^^^^^^^^^^^ keyword.control.flow
outer:
// <- entity.name.label
    break outer
//  ^^^^^ keyword.control.flow
//        ^^^^^ variable.label
    p := &Point{X: 1, Y: 2}; q := fmt.Point{}; l := len(s) + make([]int, 3)
//        ^^^^^ support.type
//                                    ^^^^^ support.type
//                                                  ^^^ support.function.builtin
//                                                           ^^^^ support.function.builtin
    f := func(a, b int) bool { return a.b == true }
//       ^^^^ storage.type.function
//            ^ variable.parameter
//               ^ variable.parameter
//                 ^^^ storage.type.primitive
//                      ^^^^ storage.type.primitive
//                                      ^ variable.other.member
//                                           ^^^^ constant.language
    var e interface{} = struct{}{}
//        ^^^^^^^^^ storage.type
//                      ^^^^^^ storage.type
}
func main() { fmt.Println("hi") }
//   ^^^^ entity.name.function
//                ^^^^^^^ variable.function
type Short struct { X, Y int } // it's
//                  ^ variable.other.member
//                     ^ variable.other.member
//                       ^^^ storage.type.primitive
//                             ^^^^^^^ comment.line
var buf, b2 bytes.Buffer = f() // c
//          ^^^^^ variable.other.namespace
//                ^^^^^^ support.type
//                         ^ variable.function
var (
    mu sync.Mutex // c
//          ^^^^^ support.type
    MAX_N = g(2)
//  ^^^^^ constant.other
//          ^ variable.function
)
func sw() {
    select {
    default:
//  ^^^^^^^ keyword.control.conditional
    }
}
