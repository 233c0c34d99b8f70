L1 12
0..1 source.shell comment.line.number-sign.shell punctuation.definition.comment.shell
1..12 source.shell comment.line.number-sign.shell
L2 45
0..1 source.shell comment.line.number-sign.shell punctuation.definition.comment.shell
1..45 source.shell comment.line.number-sign.shell
L3 8
0..3 source.shell support.function.shell
3..8 source.shell
L4 1
0..1 source.shell
L5 27
0..4 source.shell variable.other.shell
4..5 source.shell keyword.operator.assignment.shell
5..16 source.shell variable.other.readwrite.shell
16..17 source.shell
17..21 source.shell variable.other.shell
21..22 source.shell keyword.operator.assignment.shell
22..27 source.shell
L6 1
0..1 source.shell
L7 9
0..4 source.shell entity.name.function.shell
4..9 source.shell
L8 15
0..4 source.shell
4..7 source.shell support.function.shell
7..8 source.shell
8..10 source.shell keyword.operator.heredoc.shell
10..14 source.shell keyword.operator.heredoc.shell entity.name.tag.heredoc.shell
14..15 source.shell string.unquoted.heredoc.shell
L9 34
0..12 source.shell string.unquoted.heredoc.shell
12..17 source.shell string.unquoted.heredoc.shell variable.other.readwrite.shell
17..26 source.shell string.unquoted.heredoc.shell
26..33 source.shell string.unquoted.heredoc.shell variable.other.readwrite.shell
33..34 source.shell string.unquoted.heredoc.shell
L10 38
0..19 source.shell string.unquoted.heredoc.shell
19..24 source.shell string.unquoted.heredoc.shell variable.other.readwrite.shell
24..32 source.shell string.unquoted.heredoc.shell
32..37 source.shell string.unquoted.heredoc.shell variable.other.readwrite.shell
37..38 source.shell string.unquoted.heredoc.shell
L11 5
0..4 source.shell entity.name.tag.heredoc.shell
4..5 source.shell
L12 2
0..2 source.shell
L13 27
0..3 source.shell keyword.control.shell
3..9 source.shell
9..11 source.shell keyword.control.shell
11..22 source.shell
22..23 source.shell keyword.operator.shell
23..24 source.shell
24..26 source.shell keyword.control.shell
26..27 source.shell
L14 43
0..4 source.shell
4..8 source.shell support.function.shell
8..9 source.shell
9..13 source.shell string.quoted.double.shell
13..18 source.shell string.quoted.double.shell variable.other.readwrite.shell
18..20 source.shell string.quoted.double.shell
20..22 source.shell string.quoted.double.shell punctuation.section.expansion.begin.shell
22..27 source.shell string.quoted.double.shell meta.expansion.shell
27..28 source.shell string.quoted.double.shell meta.expansion.shell keyword.operator.shell
28..34 source.shell string.quoted.double.shell meta.expansion.shell
34..35 source.shell string.quoted.double.shell punctuation.section.expansion.end.shell
35..42 source.shell string.quoted.double.shell
42..43 source.shell
L15 65
0..9 source.shell
9..10 source.shell keyword.operator.shell
10..15 source.shell
15..16 source.shell string.quoted.double.shell
16..21 source.shell string.quoted.double.shell variable.other.readwrite.shell
21..22 source.shell string.quoted.double.shell
22..23 source.shell
23..64 source.shell string.quoted.single.shell
64..65 source.shell
L16 5
0..4 source.shell keyword.control.shell
4..5 source.shell
L17 24
0..3 source.shell support.function.shell
3..4 source.shell
4..7 source.shell keyword.operator.heredoc.shell
7..10 source.shell keyword.operator.heredoc.shell entity.name.tag.heredoc.shell
10..11 source.shell keyword.operator.heredoc.shell
11..24 source.shell string.unquoted.heredoc.shell
L18 45
0..45 source.shell string.unquoted.heredoc.shell
L19 4
0..3 source.shell entity.name.tag.heredoc.shell
3..4 source.shell
