#!/bin/sh
# Makes a crate of your own that shows a file in a terminal, to begin from.
#
#   sh scripts/new.sh NAME
#   sh PATH/TO/VULSANGI/scripts/new.sh NAME
#
# In this repository it writes crates/NAME/src/main.rt and a line of crates.txt. At the top of another git repository that holds this
# one, as a submodule or a copy, it does so there, and first links the crates that `syntect` stands on into crates/, with their lines.
# Nothing that is there is changed.
set -eu

[ $# -eq 1 ] || { sed -n '2,9p' "$0" >&2; exit 2; }
name=$1
here=$(cd "$(dirname "$0")/.." && pwd)
top=$(git rev-parse --show-toplevel)

# what is wrong, and the end
refuse() {
    echo "new.sh: $1" >&2
    exit 2
}

case $name in
    *[!a-z0-9_]* | [!a-z]* | '') refuse "a crate's name has small letters, digits and _, a letter first: '$name'" ;;
esac
case $here/ in
    "$top"/*) ;;
    *) refuse "$here does not lie in the repository $top" ;;
esac
[ ! -e "$top/crates/$name" ] || refuse "crates/$name is there already"
! grep -q "^$name:" "$top/crates.txt" 2> /dev/null || refuse "crates.txt has a line of $name already"

# a crate's line, after the lines of those that it names
lines_below() {
    awk -F: -v wanted="$1" '
        function put(crate, words, n, i) {
            if (crate in done || !(crate in line)) return
            done[crate] = 1
            n = split(line[crate], words, " ")
            for (i = 1; i <= n; i++) put(words[i])
            print crate ":" line[crate]
        }
        !/^#/ && NF > 1 { line[$1] = $2 }
        END { put(wanted) }' "$here/crates.txt"
}

mkdir -p "$top/crates"
if [ "$here" != "$top" ]; then
    [ -e "$top/HANDLES" ] || cp "$here/HANDLES" "$top/HANDLES"
    lines_below syntect | while IFS= read -r line; do
        crate=${line%%:*}
        [ -e "$top/crates/$crate" ] || ln -s "../${here#"$top/"}/crates/$crate" "$top/crates/$crate"
        grep -q "^$crate:" "$top/crates.txt" 2> /dev/null || printf '%s\n' "$line" >> "$top/crates.txt"
    done
fi
mkdir -p "$top/crates/$name/src"
sed "s/syntect_example_pager/$name/g" "$here/crates/syntect_example_pager/src/main.rt" > "$top/crates/$name/src/main.rt"
printf '%s: syntect anyhow\n' "$name" >> "$top/crates.txt"

cat << END
crates/$name shows a file in a terminal. In that folder

    rt try -- $here/examples/grammars $here/examples/dusk.json src/main.rt

runs it without a proof, in two to four minutes on an idle machine (--seconds 300 gives it more), and rt check proves it.
END
