// SYNTAX TEST "C++.sublime-syntax"
// <- comment.line.double-slash punctuation.definition.comment
/* a "block // */ int x;
// <- comment.block
//                ^^^ storage.type.primitive - comment
/// doc it's
// <- comment.line.documentation
#include <vector> // "why
// <- meta.preprocessor punctuation.definition.preprocessor
//       ^^^^^^^^ string.quoted.other.lt-gt
//                ^^^^^^^ comment.line
#define SQ(x) ((x) * (x))
//      ^^ entity.name.function
//         ^ variable.parameter
#if 0
 dead "
//^^^^^^ comment.block
#endif
using namespace std;
// <- keyword.control.import
//    ^^^^^^^^^ keyword.declaration
using Vec = std::vector<std::map<int, std::string>>;
//    ^^^ entity.name.type
//          ^^^ support.other.namespace
//               ^^^^^^ support.type
//                     ^ punctuation.definition.generic.begin
//                               ^^^ storage.type.primitive
//                                               ^^ punctuation.definition.generic.end
namespace a::b {
// <- keyword.declaration.namespace
//        ^^^^ entity.name.namespace
//             ^ punctuation.section.block.begin
enum class Color : uint8_t { Red = 1, Green = f(2), BLUE };
// <- keyword.declaration.enum
//   ^^^^^ keyword.declaration.enum
//         ^^^^^ entity.name.enum
//                           ^^^ entity.name.constant
//                                    ^^^^^ entity.name.constant
//                                            ^ variable.function
//                                                  ^^^^ entity.name.constant
template <typename T, class... Args, int N = 3>
// <- keyword.declaration.template
//       ^ punctuation.definition.generic.begin
//        ^^^^^^^^ storage.type
//                 ^ support.type
//                         ^^^ keyword.operator.variadic
//                                   ^^^ storage.type.primitive
//                                            ^ punctuation.definition.generic.end
class API_EXPORT Foo final : public Base<T>, private virtual other::Mixin {
// <- keyword.declaration.class storage.type.class
//    ^^^^^^^^^^ storage.modifier
//               ^^^ entity.name.class
//                   ^^^^^ storage.modifier
//                           ^^^^^^ storage.modifier
//                                  ^^^^ entity.other.inherited-class
//                                                                  ^^^^^ entity.other.inherited-class
public:
// <- storage.modifier
    explicit Foo(int a, const std::string& name = "x") : a_(a), b_{g(1)} { run(); }
//  ^^^^^^^^ storage.modifier
//           ^^^ entity.name.function
//               ^^^ storage.type.primitive
//                   ^ variable.parameter
//                                         ^^^^ variable.parameter
//                                                       ^^ variable.other.member
//                                                              ^^ variable.other.member
//                                                                 ^ variable.function - entity
//                                                                         ^^^ variable.function - entity
    virtual ~Foo() noexcept override = default;
//  ^^^^^^^ storage.modifier
//          ^ entity.name.function.destructor
//           ^^^ entity.name.function
//                 ^^^^^^^^ storage.modifier
//                          ^^^^^^^^ storage.modifier
//                                     ^^^^^^^ storage.modifier
    bool operator==(const Foo& o) const { return a_ == o.a_; }
//       ^^^^^^^^^^ entity.name.function
//                                ^^^^^ storage.modifier
//                                                  ^^ keyword.operator.comparison
//                                                       ^^ variable.other.member
    auto get() const -> std::optional<int>;
//  ^^^^ storage.type
//       ^^^ entity.name.function
//                   ^^ keyword.operator.arrow
//                           ^^^^^^^^ support.type
//                                   ^ punctuation.definition.generic.begin
  private:
//^^^^^^^ storage.modifier
    int a_ = 0;
};
// <- punctuation.section.block.end
struct Plain { int x; };
//     ^^^^^ entity.name.class
}
// <- punctuation.section.block.end
[[nodiscard]] int Foo::get(unsigned n) const
//^^^^^^^^^ meta.annotation variable.annotation
//                ^^^ support.type
//                   ^^ punctuation.accessor
//                     ^^^ entity.name.function
//                                  ^ variable.parameter
{
    auto s = R"xy(raw \n " )" // no)xy" + u8"a\n\q%d"s;
//           ^ storage.type.string
//                ^^^^^^^^^^^^^^^^^ string.quoted.double.raw - constant.character.escape
//                                ^^^^ string.quoted.double.raw
//                                      ^ keyword.operator
//                                        ^^ storage.type.string
//                                            ^^ constant.character.escape
//                                              ^^ invalid.illegal
//                                                ^^ constant.other.placeholder
//                                                   ^ storage.type.string
    auto n = 0xFFu + 0b1'0 + 017 + 1'000ms + 1.5e3f + .5 + 42_km + 0x1p3;
//           ^^ constant.numeric.integer.hexadecimal
//                   ^^^^^ constant.numeric.integer.binary
//                           ^^^ constant.numeric.integer.octal
//                                 ^^^^^ constant.numeric.integer.decimal
//                                      ^^ storage.type.numeric
//                                           ^^^^^ constant.numeric.float
//                                                    ^^ constant.numeric.float
//                                                         ^^ constant.numeric.integer
//                                                           ^^^ storage.type.numeric
//                                                                 ^^^^^ constant.numeric.float
    char c = '\'', d = '"', e = L'x';
//           ^^^^ string.quoted.single
//            ^^ constant.character.escape
//                     ^^^ string.quoted.single
//                              ^ storage.type.string
    if (a < b && c > d or not e) return nullptr; else throw Err("x");
//  ^^ keyword.control.conditional
//        ^ keyword.operator.comparison
//                     ^^ keyword.operator.word
//                        ^^^ keyword.operator.word
//                               ^^^^^^ keyword.control.flow
//                                      ^^^^^^^ constant.language
//                                                    ^^^^^ keyword.control.exception
    if (a<b && c>d) for (int i=0; i<n; ++i) { x = y<=>z; }
//       ^ keyword.operator.comparison
//                                 ^ keyword.operator.comparison
//                                                 ^^^ keyword.operator.comparison
    auto p = static_cast<Foo*>(q); this->run(); std::make_unique<Foo>(1); new int[3];
//           ^^^^^^^^^^^ keyword.operator.word
//                      ^ punctuation.definition.generic.begin
//                                 ^^^^ variable.language
//                                     ^^ punctuation.accessor
//                                       ^^^ variable.function
//                                                   ^^^^^^^^^ variable.function
//                                                              ^ punctuation.definition.generic.begin
//                                                                        ^^^ keyword.operator.word
    auto f = [&, this](int a) mutable { return a.template get<0>(); };
//                    ^ punctuation.section.group.begin
//                            ^^^^^^^ storage.modifier
//                                      ^^^^^^ keyword.control.flow
    try { co_await x; } catch (const std::exception& e) { goto done; }
//  ^^^ keyword.control.exception
//        ^^^^^^^^ keyword.control.flow
//                      ^^^^^ keyword.control.exception
//                                                        ^^^^ keyword.control.flow
done:
// <- entity.name.label
    "unterminated
    int z = MAX_LEN; switch (z) { case Color::Red: break; default: ; }
//  ^^^ storage.type.primitive - string
//          ^^^^^^^ constant.other
//                                     ^^^^^ support.type
//                                                 ^^^^^ keyword.control.flow
}
template<class T> concept Sized = requires(T t) { t.size(); };
//                ^^^^^^^ keyword.declaration
//                        ^^^^^ entity.name.type
//                                ^^^^^^^^ keyword.other
//                                                  ^^^^ variable.function
extern "C" { int h(void); }
// <- storage.modifier
//     ^^^ string.quoted.double
//               ^ entity.name.function
int main() { return 0; }
//  ^^^^ entity.name.function
std::ostream& operator<<(std::ostream& os, const T& t);
//            ^^^^^^^^^^ entity.name.function
//                                     ^^ variable.parameter
struct Tag { Tag(int, true_type) NOEXCEPT : a(1) { } };
//                    ^^^^^^^^^ - variable.parameter
//                               ^^^^^^^^ constant.other
//                                          ^ variable.other.member
struct Conv { operator bool() const; };
//            ^^^^^^^^ storage.type
//                     ^^^^ entity.name.function
auto lam = [](int a) -> int { return p->q; };
//                   ^^ keyword.operator.arrow
//                      ^^^ storage.type.primitive
//                                      ^ variable.other.member
#if 0
#endif
int live;
// <- storage.type.primitive - comment
