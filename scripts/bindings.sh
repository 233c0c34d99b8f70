#!/bin/sh
# Builds the library for C and tries it from C, Python and Rust, as far as cc, python3 and cargo are here; what is passed over
# is told in a line. The library is proved and built first, with the Rattle kit's command rt, where it isn't yet.
#
#   sh scripts/bindings.sh
#   sh scripts/bindings.sh --pages GRAMMARS THEME TEXTS PAGES
#
# The second also shows each text of a folder by a theme (a file of JSON) and the grammars of a folder, from C, Python and
# Rust, and compares it with the page of its name in the folder PAGES (NAME.html or NAME.gz).
#
# ARCHIVE in the environment names another archive than that which `rt lib` writes, as one without proof for a first look.
set -eu

here=$(cd "$(dirname "$0")/.." && pwd)
pages=
case "$#:${1:-}" in
    0:) ;;
    5:--pages) pages=yes ;;
    *) sed -n '2,11p' "$0"; exit 2 ;;
esac

# whether a command is here, and a word where it isn't
has() {
    command -v "$1" > /dev/null || { echo "bindings.sh: no $1: $2 is not tried"; return 1; }
}

has "${CC:-cc}" "any of the bindings" || exit 0

cd "$here/bindings/c"
make ${ARCHIVE:+ARCHIVE="$ARCHIVE"} all check
if has valgrind "the library under valgrind"; then
    make ${ARCHIVE:+ARCHIVE="$ARCHIVE"} valgrind
fi
./example ../../examples/dusk.json rs ../../examples/texts/orbit.rs ../../grammars/Rust.sublime-syntax > page.html
cmp page.html ../../docs/example.html
rm page.html
echo "C: the page of examples/texts/orbit.rs is docs/example.html"

if has python3 Python; then
    cd "$here/bindings/python"
    python3 -B -m unittest discover --quiet -s tests
fi
if has cargo Rust; then
    cd "$here/bindings/rust"
    cargo test --quiet --offline
    cargo build --quiet --offline --release --examples
fi
if [ -n "$pages" ] && has python3 "any page"; then
    shift
    cd "$here/bindings"
    PYTHONPATH=python python3 -B pages.py "$@"
fi
