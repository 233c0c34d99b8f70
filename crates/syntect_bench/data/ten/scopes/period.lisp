L1 39
0..3 source.lisp comment.line.semicolon.lisp punctuation.definition.comment.lisp
3..39 source.lisp comment.line.semicolon.lisp
L2 39
0..13 source.lisp comment.block.lisp
13..25 source.lisp comment.block.lisp comment.block.lisp
25..38 source.lisp comment.block.lisp
38..39 source.lisp
L3 46
0..1 source.lisp meta.list.lisp punctuation.section.parens.begin.lisp
1..6 source.lisp meta.list.lisp storage.type.function.lisp
6..7 source.lisp meta.list.lisp
7..15 source.lisp meta.list.lisp entity.name.function.lisp
15..16 source.lisp meta.list.lisp
16..17 source.lisp meta.list.lisp punctuation.section.parameters.begin.lisp
17..22 source.lisp meta.list.lisp meta.parameters.lisp variable.parameter.lisp
22..23 source.lisp meta.list.lisp meta.parameters.lisp
23..32 source.lisp meta.list.lisp meta.parameters.lisp keyword.other.lisp
32..33 source.lisp meta.list.lisp meta.parameters.lisp
33..34 source.lisp meta.list.lisp meta.parameters.lisp meta.parameter.optional.lisp
34..39 source.lisp meta.list.lisp meta.parameters.lisp meta.parameter.optional.lisp variable.parameter.lisp
39..40 source.lisp meta.list.lisp meta.parameters.lisp meta.parameter.optional.lisp
40..41 source.lisp meta.list.lisp meta.parameters.lisp meta.parameter.optional.lisp constant.numeric.lisp
41..43 source.lisp meta.list.lisp meta.parameters.lisp meta.parameter.optional.lisp constant.numeric.lisp meta.fraction.lisp
43..44 source.lisp meta.list.lisp meta.parameters.lisp meta.parameter.optional.lisp
44..45 source.lisp meta.list.lisp punctuation.section.parameters.end.lisp
45..46 source.lisp meta.list.lisp
L4 38
0..2 source.lisp meta.list.lisp
2..37 source.lisp meta.list.lisp comment.block.documentation.lisp
37..38 source.lisp meta.list.lisp
L5 37
0..2 source.lisp meta.list.lisp
2..3 source.lisp meta.list.lisp meta.list.lisp punctuation.section.parens.begin.lisp
3..5 source.lisp meta.list.lisp meta.list.lisp keyword.control.lisp
5..6 source.lisp meta.list.lisp meta.list.lisp
6..7 source.lisp meta.list.lisp meta.list.lisp meta.list.lisp punctuation.section.parens.begin.lisp
7..8 source.lisp meta.list.lisp meta.list.lisp meta.list.lisp variable.function.lisp
8..15 source.lisp meta.list.lisp meta.list.lisp meta.list.lisp
15..16 source.lisp meta.list.lisp meta.list.lisp meta.list.lisp constant.numeric.lisp
16..17 source.lisp meta.list.lisp meta.list.lisp meta.list.lisp punctuation.section.parens.end.lisp
17..18 source.lisp meta.list.lisp meta.list.lisp
18..19 source.lisp meta.list.lisp meta.list.lisp comment.line.semicolon.lisp punctuation.definition.comment.lisp
19..37 source.lisp meta.list.lisp meta.list.lisp comment.line.semicolon.lisp
L6 10
0..6 source.lisp meta.list.lisp meta.list.lisp
6..9 source.lisp meta.list.lisp meta.list.lisp constant.language.lisp
9..10 source.lisp meta.list.lisp meta.list.lisp
L7 40
0..6 source.lisp meta.list.lisp meta.list.lisp
6..7 source.lisp meta.list.lisp meta.list.lisp meta.list.lisp punctuation.section.parens.begin.lisp
7..8 source.lisp meta.list.lisp meta.list.lisp meta.list.lisp variable.function.lisp
8..9 source.lisp meta.list.lisp meta.list.lisp meta.list.lisp
9..10 source.lisp meta.list.lisp meta.list.lisp meta.list.lisp constant.numeric.lisp
10..14 source.lisp meta.list.lisp meta.list.lisp meta.list.lisp
14..15 source.lisp meta.list.lisp meta.list.lisp meta.list.lisp meta.list.lisp punctuation.section.parens.begin.lisp
15..19 source.lisp meta.list.lisp meta.list.lisp meta.list.lisp meta.list.lisp variable.function.lisp
19..20 source.lisp meta.list.lisp meta.list.lisp meta.list.lisp meta.list.lisp
20..21 source.lisp meta.list.lisp meta.list.lisp meta.list.lisp meta.list.lisp meta.list.lisp punctuation.section.parens.begin.lisp
21..22 source.lisp meta.list.lisp meta.list.lisp meta.list.lisp meta.list.lisp meta.list.lisp variable.function.lisp
22..34 source.lisp meta.list.lisp meta.list.lisp meta.list.lisp meta.list.lisp meta.list.lisp
34..35 source.lisp meta.list.lisp meta.list.lisp meta.list.lisp meta.list.lisp meta.list.lisp punctuation.section.parens.end.lisp
35..36 source.lisp meta.list.lisp meta.list.lisp meta.list.lisp meta.list.lisp punctuation.section.parens.end.lisp
36..37 source.lisp meta.list.lisp meta.list.lisp meta.list.lisp punctuation.section.parens.end.lisp
37..38 source.lisp meta.list.lisp meta.list.lisp punctuation.section.parens.end.lisp
38..39 source.lisp meta.list.lisp punctuation.section.parens.end.lisp
39..40 source.lisp
L8 1
0..1 source.lisp
L9 38
0..1 source.lisp meta.list.lisp punctuation.section.parens.begin.lisp
1..5 source.lisp meta.list.lisp keyword.control.lisp
5..12 source.lisp meta.list.lisp
12..13 source.lisp meta.list.lisp keyword.operator.quote.lisp
13..14 source.lisp meta.list.lisp meta.list.lisp punctuation.section.parens.begin.lisp
14..15 source.lisp meta.list.lisp meta.list.lisp meta.list.lisp punctuation.section.parens.begin.lisp
15..16 source.lisp meta.list.lisp meta.list.lisp meta.list.lisp constant.other.keyword.lisp punctuation.definition.keyword.lisp
16..20 source.lisp meta.list.lisp meta.list.lisp meta.list.lisp constant.other.keyword.lisp
20..21 source.lisp meta.list.lisp meta.list.lisp meta.list.lisp
21..22 source.lisp meta.list.lisp meta.list.lisp meta.list.lisp string.quoted.double.lisp punctuation.definition.string.begin.lisp
22..24 source.lisp meta.list.lisp meta.list.lisp meta.list.lisp string.quoted.double.lisp
24..25 source.lisp meta.list.lisp meta.list.lisp meta.list.lisp string.quoted.double.lisp punctuation.definition.string.end.lisp
25..26 source.lisp meta.list.lisp meta.list.lisp meta.list.lisp
26..27 source.lisp meta.list.lisp meta.list.lisp meta.list.lisp constant.other.keyword.lisp punctuation.definition.keyword.lisp
27..32 source.lisp meta.list.lisp meta.list.lisp meta.list.lisp constant.other.keyword.lisp
32..33 source.lisp meta.list.lisp meta.list.lisp meta.list.lisp
33..34 source.lisp meta.list.lisp meta.list.lisp meta.list.lisp constant.numeric.lisp
34..36 source.lisp meta.list.lisp meta.list.lisp meta.list.lisp constant.numeric.lisp meta.fraction.lisp
36..37 source.lisp meta.list.lisp meta.list.lisp meta.list.lisp punctuation.section.parens.end.lisp
37..38 source.lisp meta.list.lisp meta.list.lisp
L10 47
0..14 source.lisp meta.list.lisp meta.list.lisp
14..15 source.lisp meta.list.lisp meta.list.lisp meta.list.lisp punctuation.section.parens.begin.lisp
15..16 source.lisp meta.list.lisp meta.list.lisp meta.list.lisp constant.other.keyword.lisp punctuation.definition.keyword.lisp
16..20 source.lisp meta.list.lisp meta.list.lisp meta.list.lisp constant.other.keyword.lisp
20..21 source.lisp meta.list.lisp meta.list.lisp meta.list.lisp
21..22 source.lisp meta.list.lisp meta.list.lisp meta.list.lisp string.quoted.double.lisp punctuation.definition.string.begin.lisp
22..24 source.lisp meta.list.lisp meta.list.lisp meta.list.lisp string.quoted.double.lisp
24..26 source.lisp meta.list.lisp meta.list.lisp meta.list.lisp string.quoted.double.lisp constant.character.escape.lisp
26..30 source.lisp meta.list.lisp meta.list.lisp meta.list.lisp string.quoted.double.lisp
30..31 source.lisp meta.list.lisp meta.list.lisp meta.list.lisp string.quoted.double.lisp punctuation.definition.string.end.lisp
31..32 source.lisp meta.list.lisp meta.list.lisp meta.list.lisp
32..33 source.lisp meta.list.lisp meta.list.lisp meta.list.lisp constant.other.keyword.lisp punctuation.definition.keyword.lisp
33..38 source.lisp meta.list.lisp meta.list.lisp meta.list.lisp constant.other.keyword.lisp
38..39 source.lisp meta.list.lisp meta.list.lisp meta.list.lisp
39..41 source.lisp meta.list.lisp meta.list.lisp meta.list.lisp constant.numeric.lisp
41..43 source.lisp meta.list.lisp meta.list.lisp meta.list.lisp constant.numeric.lisp meta.fraction.lisp
43..44 source.lisp meta.list.lisp meta.list.lisp meta.list.lisp punctuation.section.parens.end.lisp
44..45 source.lisp meta.list.lisp meta.list.lisp punctuation.section.parens.end.lisp
45..46 source.lisp meta.list.lisp punctuation.section.parens.end.lisp
46..47 source.lisp
L11 21
0..1 source.lisp meta.list.lisp punctuation.section.parens.begin.lisp
1..4 source.lisp meta.list.lisp keyword.control.lisp
4..5 source.lisp meta.list.lisp
5..6 source.lisp meta.list.lisp meta.list.lisp punctuation.section.parens.begin.lisp
6..7 source.lisp meta.list.lisp meta.list.lisp meta.list.lisp punctuation.section.parens.begin.lisp
7..8 source.lisp meta.list.lisp meta.list.lisp meta.list.lisp variable.function.lisp
8..9 source.lisp meta.list.lisp meta.list.lisp meta.list.lisp
9..11 source.lisp meta.list.lisp meta.list.lisp meta.list.lisp constant.numeric.lisp
11..12 source.lisp meta.list.lisp meta.list.lisp meta.list.lisp punctuation.section.parens.end.lisp
12..13 source.lisp meta.list.lisp meta.list.lisp
13..14 source.lisp meta.list.lisp meta.list.lisp meta.list.lisp punctuation.section.parens.begin.lisp
14..15 source.lisp meta.list.lisp meta.list.lisp meta.list.lisp variable.function.lisp
15..18 source.lisp meta.list.lisp meta.list.lisp meta.list.lisp
18..19 source.lisp meta.list.lisp meta.list.lisp meta.list.lisp punctuation.section.parens.end.lisp
19..20 source.lisp meta.list.lisp meta.list.lisp punctuation.section.parens.end.lisp
20..21 source.lisp meta.list.lisp
L12 27
0..2 source.lisp meta.list.lisp
2..3 source.lisp meta.list.lisp keyword.operator.quote.lisp
3..4 source.lisp meta.list.lisp meta.list.lisp punctuation.section.parens.begin.lisp
4..8 source.lisp meta.list.lisp meta.list.lisp variable.function.lisp
8..12 source.lisp meta.list.lisp meta.list.lisp
12..14 source.lisp meta.list.lisp meta.list.lisp keyword.operator.quote.lisp
14..15 source.lisp meta.list.lisp meta.list.lisp meta.list.lisp punctuation.section.parens.begin.lisp
15..19 source.lisp meta.list.lisp meta.list.lisp meta.list.lisp variable.function.lisp
19..21 source.lisp meta.list.lisp meta.list.lisp meta.list.lisp
21..22 source.lisp meta.list.lisp meta.list.lisp meta.list.lisp punctuation.section.parens.end.lisp
22..23 source.lisp meta.list.lisp meta.list.lisp
23..24 source.lisp meta.list.lisp meta.list.lisp constant.language.lisp
24..25 source.lisp meta.list.lisp meta.list.lisp punctuation.section.parens.end.lisp
25..26 source.lisp meta.list.lisp punctuation.section.parens.end.lisp
26..27 source.lisp
L13 2
0..1 source.lisp invalid.illegal.stray-parenthesis.lisp
1..2 source.lisp
L14 31
0..1 source.lisp meta.list.lisp punctuation.section.parens.begin.lisp
1..9 source.lisp meta.list.lisp storage.type.function.lisp
9..10 source.lisp meta.list.lisp
10..15 source.lisp meta.list.lisp entity.name.function.lisp
15..16 source.lisp meta.list.lisp
16..17 source.lisp meta.list.lisp punctuation.section.parameters.begin.lisp
17..18 source.lisp meta.list.lisp punctuation.section.parameters.end.lisp
18..19 source.lisp meta.list.lisp
19..20 source.lisp meta.list.lisp meta.list.lisp punctuation.section.parens.begin.lisp
20..26 source.lisp meta.list.lisp meta.list.lisp keyword.control.lisp
26..27 source.lisp meta.list.lisp meta.list.lisp
27..28 source.lisp meta.list.lisp meta.list.lisp meta.list.lisp punctuation.section.parens.begin.lisp
28..29 source.lisp meta.list.lisp meta.list.lisp meta.list.lisp variable.function.lisp
29..30 source.lisp meta.list.lisp meta.list.lisp meta.list.lisp punctuation.section.parens.end.lisp
30..31 source.lisp meta.list.lisp meta.list.lisp
L15 26
0..2 source.lisp meta.list.lisp meta.list.lisp
2..3 source.lisp meta.list.lisp meta.list.lisp meta.list.lisp punctuation.section.parens.begin.lisp
3..11 source.lisp meta.list.lisp meta.list.lisp meta.list.lisp variable.function.lisp
11..12 source.lisp meta.list.lisp meta.list.lisp meta.list.lisp
12..20 source.lisp meta.list.lisp meta.list.lisp meta.list.lisp comment.block.lisp
20..22 source.lisp meta.list.lisp meta.list.lisp meta.list.lisp
22..23 source.lisp meta.list.lisp meta.list.lisp meta.list.lisp punctuation.section.parens.end.lisp
23..24 source.lisp meta.list.lisp meta.list.lisp punctuation.section.parens.end.lisp
24..25 source.lisp meta.list.lisp punctuation.section.parens.end.lisp
25..26 source.lisp
