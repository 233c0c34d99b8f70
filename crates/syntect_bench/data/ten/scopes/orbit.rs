L1 41
0..3 source.rust comment.line.documentation.rust punctuation.definition.comment.rust
3..41 source.rust comment.line.documentation.rust
L2 27
0..3 source.rust keyword.other.import.rust
3..7 source.rust
7..9 source.rust keyword.operator.rust
9..12 source.rust storage.type.primitive.rust
12..14 source.rust keyword.operator.rust
14..20 source.rust
20..22 source.rust keyword.operator.rust
22..25 source.rust support.type.rust
25..27 source.rust
L3 1
0..1 source.rust
L4 46
0..3 source.rust comment.line.documentation.rust punctuation.definition.comment.rust
3..40 source.rust comment.line.documentation.rust
40..44 source.rust comment.line.documentation.rust markup.raw.inline.rust
44..46 source.rust comment.line.documentation.rust
L5 30
0..2 source.rust meta.annotation.rust punctuation.definition.annotation.rust
2..8 source.rust meta.annotation.rust variable.annotation.rust
8..9 source.rust meta.annotation.rust
9..14 source.rust meta.annotation.rust variable.annotation.rust
14..16 source.rust meta.annotation.rust
16..20 source.rust meta.annotation.rust variable.annotation.rust
20..22 source.rust meta.annotation.rust
22..27 source.rust meta.annotation.rust variable.annotation.rust
27..28 source.rust meta.annotation.rust
28..29 source.rust meta.annotation.rust punctuation.definition.annotation.rust
29..30 source.rust
L6 22
0..3 source.rust storage.modifier.rust
3..4 source.rust
4..10 source.rust storage.type.rust
10..11 source.rust
11..15 source.rust entity.name.type.rust
15..16 source.rust keyword.operator.rust
16..18 source.rust storage.modifier.lifetime.rust
18..19 source.rust keyword.operator.rust
19..22 source.rust
L7 19
0..10 source.rust
10..11 source.rust keyword.operator.rust
11..13 source.rust storage.modifier.lifetime.rust
13..14 source.rust
14..17 source.rust storage.type.primitive.rust
17..19 source.rust
L8 2
0..2 source.rust
L9 1
0..1 source.rust
L10 20
0..4 source.rust storage.modifier.rust
4..5 source.rust keyword.operator.rust
5..7 source.rust storage.modifier.lifetime.rust
7..8 source.rust keyword.operator.rust
8..9 source.rust
9..13 source.rust support.type.rust
13..14 source.rust keyword.operator.rust
14..16 source.rust storage.modifier.lifetime.rust
16..17 source.rust keyword.operator.rust
17..20 source.rust
L11 44
0..4 source.rust
4..6 source.rust comment.block.rust punctuation.definition.comment.rust
6..44 source.rust comment.block.rust
L12 58
0..7 source.rust comment.block.rust
7..42 source.rust comment.block.rust comment.block.rust
42..57 source.rust comment.block.rust
57..58 source.rust
L13 44
0..4 source.rust
4..7 source.rust storage.modifier.rust
7..8 source.rust
8..10 source.rust storage.type.function.rust
10..11 source.rust
11..16 source.rust entity.name.function.rust
16..17 source.rust
17..18 source.rust keyword.operator.rust
18..22 source.rust constant.language.rust
22..30 source.rust
30..33 source.rust storage.type.primitive.rust
33..35 source.rust
35..37 source.rust keyword.operator.rust
37..38 source.rust
38..41 source.rust storage.type.primitive.rust
41..44 source.rust
L14 52
0..8 source.rust
8..15 source.rust support.macro.rust
15..16 source.rust keyword.operator.rust
16..17 source.rust
17..18 source.rust string.quoted.double.rust punctuation.definition.string.begin.rust
18..23 source.rust string.quoted.double.rust constant.other.placeholder.rust
23..25 source.rust string.quoted.double.rust constant.character.escape.rust
25..37 source.rust string.quoted.double.rust constant.other.placeholder.rust
37..38 source.rust string.quoted.double.rust punctuation.definition.string.end.rust
38..40 source.rust
40..44 source.rust constant.language.rust
44..52 source.rust
L15 61
0..8 source.rust
8..11 source.rust storage.modifier.rust
11..16 source.rust
16..17 source.rust keyword.operator.rust
17..18 source.rust
18..21 source.rust string.quoted.raw.rust punctuation.definition.string.begin.rust
21..57 source.rust string.quoted.raw.rust
57..59 source.rust string.quoted.raw.rust punctuation.definition.string.end.rust
59..61 source.rust
L16 45
0..8 source.rust
8..11 source.rust storage.modifier.rust
11..19 source.rust
19..20 source.rust keyword.operator.rust
20..22 source.rust
22..30 source.rust string.quoted.single.rust
30..32 source.rust
32..36 source.rust string.quoted.single.rust
36..39 source.rust
39..42 source.rust string.quoted.single.rust
42..45 source.rust
L17 59
0..8 source.rust
8..14 source.rust keyword.control.rust
14..15 source.rust
15..18 source.rust support.type.rust
18..19 source.rust
19..20 source.rust keyword.operator.rust
20..27 source.rust
27..28 source.rust keyword.operator.rust
28..29 source.rust
29..34 source.rust constant.numeric.rust
34..36 source.rust
36..41 source.rust variable.function.rust
41..44 source.rust
44..45 source.rust keyword.operator.rust
45..46 source.rust
46..50 source.rust constant.numeric.rust
50..51 source.rust
51..53 source.rust keyword.control.rust
53..54 source.rust
54..57 source.rust storage.type.primitive.rust
57..59 source.rust
L18 6
0..6 source.rust
L19 2
0..2 source.rust
