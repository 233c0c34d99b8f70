// SYNTAX TEST "Swift.sublime-syntax"
// <- comment.line.double-slash punctuation.definition.comment
/* a /* nested " */ block // */ import Foundation
// <- comment.block
//                     ^^^^^ comment.block
/// Doc it's
// <- comment.line.documentation
/// - Parameter name: x
//    ^^^^^^^^^ keyword.other.documentation
//              ^^^^ variable.parameter
// MARK: - here
// ^^^^^ comment.line keyword.other
import Foundation // "why
// <- keyword.control.import
//     ^^^^^^^^^^ entity.name.namespace
//                ^^^^^^^ comment.line
import struct Foo.Bar
//     ^^^^^^ storage.type
#if os(iOS) && !DEBUG
// <- meta.preprocessor punctuation.definition.preprocessor
//^ keyword.control.preprocessor
//  ^^ support.function
//              ^^^^^ constant.other
#endif
@available(iOS 13.0, *) @MainActor @objc(name)
// <- meta.annotation punctuation.definition.annotation
//^^^^^^^^ variable.annotation
//         ^^^ support.constant
//             ^^^^ constant.numeric
//                   ^ keyword.operator
//                       ^^^^^^^^^ variable.annotation
public final class Foo<T: Hashable>: Base, Thing where T: Equatable {
// <- storage.modifier
//     ^^^^^ storage.modifier
//           ^^^^^ keyword.declaration.class storage.type.class
//                 ^^^ entity.name.class
//                    ^ punctuation.definition.generic.begin
//                     ^ support.type
//                                ^ punctuation.definition.generic.end
//                                   ^^^^ entity.other.inherited-class
//                                         ^^^^^ entity.other.inherited-class
//                                               ^^^^^ keyword.other
    private(set) static var MAX_SIZE = 1_000, b: [String: Int?] = [:]
//  ^^^^^^^ storage.modifier
//               ^^^^^^ storage.modifier
//                      ^^^ keyword.declaration
//                          ^^^^^^^^ constant.other
//                                     ^^^^^ constant.numeric.integer
//                                                ^^^^^^ support.type
    init?(from x: Int, _ y: inout T = .red) throws { self.x = x }
//  ^^^^ keyword.declaration
//      ^ keyword.operator
//        ^^^^ entity.name.label
//             ^ variable.parameter
//                ^^^ support.type
//                       ^ variable.parameter
//                          ^^^^^ storage.modifier
//                                     ^^^ constant.other
//                                          ^^^^^^ storage.modifier
//                                                   ^^^^ variable.language
//                                                        ^ variable.other.member
    func get<K>(key: K, f: @escaping (Int) -> Void) async throws -> [K] where K: Any {
//  ^^^^ keyword.declaration.function storage.type.function
//       ^^^ entity.name.function
//          ^ punctuation.definition.generic.begin
//              ^^^ variable.parameter
//                         ^^^^^^^^^ variable.annotation
//                                         ^^ keyword.operator.arrow
//                                                  ^^^^^ storage.modifier
//                                                               ^^ keyword.operator.arrow
//                                                                   ^ support.type
//                                                                      ^^^^^ keyword.other
        let s = "a \n \u{41} \" \(x.foo("q") + (1)) \q // no"
//      ^^^ keyword.declaration.variable storage.type
//              ^ string.quoted.double punctuation.definition.string.begin
//                 ^^ constant.character.escape
//                    ^^^^^^ constant.character.escape
//                           ^^ constant.character.escape
//                              ^^ punctuation.section.interpolation.begin
//                                ^ meta.interpolation - string
//                                  ^^^ variable.function
//                                      ^^^ meta.interpolation string.quoted.double
//                                              ^ constant.numeric
//                                                ^ punctuation.section.interpolation.end
//                                                  ^^ invalid.illegal
//                                                     ^^^^^ string.quoted.double - comment
        let r = #"raw \n "q" \#(z) \#n"# + ##"a "# b"##
//              ^^ string.quoted.double.raw
//                    ^^^^^^ string.quoted.double.raw - constant
//                           ^^^ punctuation.section.interpolation.begin
//                              ^ meta.interpolation - string
//                                 ^^^ constant.character.escape
//                                       ^ keyword.operator
//                                              ^^^^ string.quoted.double.raw
        "unterminated
        let t = """
//      ^^^ keyword.declaration - string
          text "quoted" \(y) // no
//        ^^^^^^^^^^^^^ string.quoted.triple
//                        ^ meta.interpolation - string
//                           ^^^^^ string.quoted.triple - comment
          """
//        ^^^ string.quoted.triple punctuation.definition.string.end
        let n = 0xFF + 0b1010 + 0o17 + 1.5e-3 + 1e10 + 0x1p3 + t.0 + a / b / c
//              ^^ constant.numeric.integer.hexadecimal
//                     ^^^^^^ constant.numeric.integer.binary
//                              ^^^^ constant.numeric.integer.octal
//                                     ^^^^^^ constant.numeric.float
//                                              ^^^^ constant.numeric.float
//                                                     ^^^^^ constant.numeric.float
//                                                               ^ constant.numeric.integer
//                                                                     ^^^^^ - string
        let re = /a\d[^b]+(c)/
//               ^ string.regexp punctuation.definition.string.begin
//                 ^^ constant.character.escape
//                        ^^^ string.regexp
        if a < b && c > d || !e { return nil } else { throw Err.bad }
//      ^^ keyword.control.conditional
//           ^ keyword.operator.comparison
//               ^^ keyword.operator.logical
//                                ^^^^^^ keyword.control.flow
//                                       ^^^ constant.language
//                                             ^^^^ keyword.control.conditional
//                                                    ^^^^^ keyword.control.exception
        outer: for i in 0..<10 where i > 2 { continue outer }
//      ^^^^^ entity.name.label
//             ^^^ keyword.control.loop
//                   ^^ keyword.operator.word
//                      ^ constant.numeric.integer
//                       ^^^ keyword.operator.range
//                             ^^^^^ keyword.other
//                                           ^^^^^^^^ keyword.control.flow
//                                                    ^^^^^ variable.label
        guard let q = try? await xs.map({ a, b in $0 + a }) else { fatalError("x") }
//      ^^^^^ keyword.control.conditional
//            ^^^ keyword.declaration
//                    ^^^^ keyword.control.exception
//                         ^^^^^ keyword.control.flow
//                                  ^^^ variable.function
//                                        ^ variable.parameter
//                                             ^^ keyword.operator.word
//                                                ^^ variable.language
//                                                                 ^^^^^^^^^^ support.function
        let m = Dictionary<String, [Int]>(minimum: 1) as? Foo; x.default ?? y.self
//              ^^^^^^^^^^ support.type
//                        ^ punctuation.definition.generic.begin
//                                      ^ punctuation.definition.generic.end
//                                        ^^^^^^^ variable.parameter
//                                                    ^^^ keyword.operator.word
//                                                               ^^^^^^^ variable.other.member
//                                                                       ^^ keyword.operator
//                                                                            ^^^^ variable.language
        switch o { case .foo(let v): break; case is Int: fallthrough; default: `in`(1) }
//      ^^^^^^ keyword.control.conditional
//                 ^^^^ keyword.control.conditional
//                       ^^^ variable.function
//                           ^^^ keyword.declaration
//                                               ^^ keyword.operator.word
//                                                       ^^^^^^^^^^^ keyword.control.flow
//                                                                    ^^^^^^^ keyword.control.conditional
        do { try x() } catch let e as Err { } ; a += 1; b = c ? 1 : 2; #selector(f)
//      ^^ keyword.control.exception
//                     ^^^^^ keyword.control.exception
//                                                ^^ keyword.operator.assignment
//                                                            ^ keyword.operator
//                                                                     ^^^^^^^^^ support.function
    }
    static func == (lhs: T, rhs: T) -> Bool { true }
//              ^^ entity.name.function
//                  ^^^ variable.parameter
    var p: Int { get { 1 } set { } }
//               ^^^ keyword.declaration
//                         ^^^ keyword.declaration
}
// <- punctuation.section.block.end
indirect enum Color: String { case red = "r", green(Int, x: T) 
// <- storage.modifier
//       ^^^^ keyword.declaration.enum
//            ^^^^^ entity.name.enum
//                   ^^^^^^ entity.other.inherited-class
//                            ^^^^ keyword.declaration.case
//                                 ^^^ entity.name.constant
//                                       ^^^ string.quoted.double
//                                            ^^^^^ entity.name.constant
//                                                       ^ variable.parameter
}
protocol P: AnyObject { associatedtype Item; func f() }
// <- keyword.declaration
//       ^ entity.name.interface
//                      ^^^^^^^^^^^^^^ keyword.declaration
//                                     ^^^^ entity.name.type
extension Array where Element == Int { }
// <- keyword.declaration
//        ^^^^^ entity.name.class
//              ^^^^^ keyword.other
@testable import MyApp
// <- variable.annotation
//        ^^^^^^ keyword.control.import
//               ^^^^^ entity.name.namespace
