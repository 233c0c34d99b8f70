#!/bin/sh
# Counts how many instructions a page of HTML of each text takes, in thousands, without those of loading. It needs valgrind;
# where the machine is busy a count says more than a time.
#
#   sh scripts/instructions.sh SYNCAT GRAMMARS THEME FILE..
set -eu
[ $# -ge 4 ] || { sed -n '2,5p' "$0"; exit 2; }
syncat=$1 grammars=$2 theme=$3
shift 3
room=$(mktemp -d)
trap 'rm -rf "$room"' EXIT
: > "$room/empty"
count() {
    valgrind --tool=callgrind --callgrind-out-file="$room/calls" "$syncat" "$grammars" "$theme" html "$1" 2>&1 > /dev/null |
        sed -n 's/.*refs: *//p' | tr -d ,
}
loading=$(count "$room/empty")
echo "loading $((loading / 1000))"
for file; do
    all=$(count "$file")
    echo "$(basename "$file") $(((all - loading) / 1000))"
done
