#!/bin/sh
# Times the highlighter beside syntect 5.3.0, text by text, and prints a table in Markdown.
#
#   sh scripts/speed.sh BENCH ORACLE GRAMMARS THEME ROUNDS FILE..
#
# BENCH is the built program syntect_bench. ORACLE is a program on the crate that answers `bench GRAMMARS THEME FILE ROUNDS`
# with a line `parse: .. least N ms ..` and one `parse+highlight: .. least N ms ..`. Each text is timed by one right after the
# other, on one thread and without loading; the least of the rounds counts. The last two columns are the ratios, of which
# alone much is to be made on a busy machine.
set -eu
[ $# -ge 6 ] || { sed -n '2,9p' "$0"; exit 2; }
bench=$1 oracle=$2 grammars=$3 theme=$4 rounds=$5
shift 5
echo '| Text | KB | crate: parse ms | with styles | here: parse ms | with styles | parse | with styles |'
echo '|---|---|---|---|---|---|---|---|'
for file; do
    { "$oracle" bench "$grammars" "$theme" "$file" "$rounds"; "$bench" time "$grammars" "$theme" "$file" "$rounds"; } |
        awk -v name="$(basename "$file")" -v size="$(wc -c < "$file")" '
            function after(word) { sub(".*" word " *", ""); return $0 + 0 }
            /^parse: / { parse = after("least") }
            /^parse\+highlight: / { styled = after("least") }
            /^parse [0-9]+ us/ { own = $2 / 1000; shown = $6 / 1000 }
            END {
                printf "| %s | %.0f | %.2f | %.2f | %.2f | %.2f | %.2f | %.2f |\n",
                    name, size / 1024, parse, styled, own, shown, own / parse, shown / styled
            }'
done
