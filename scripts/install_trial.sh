#!/bin/sh
# Tries install.sh on a small repository of four crates, with all that it keeps in a folder of its own: by --plan, stopped
# and taken up, called again, with a crate that is not proved, beside another call, and by --uninstall. It takes some two
# minutes.
#
#   sh scripts/install_trial.sh
#
# Each line is something that was seen; the status is 1 where one is missing.
set -eu

here=$(cd "$(dirname "$0")/.." && pwd)
room=$(mktemp -d)
trap 'rm -rf "$room"' EXIT
top=$room/top
bin=$room/bin
export VULSANGI_BUILD="$room/build" JOBS=1
status=0

# whether the rest of the words, as a command, succeeds
seen() {
    what=$1
    shift
    if "$@"; then
        echo "ok: $what"
    else
        echo "MISSING: $what"
        status=1
    fi
}

# calls install.sh; its words and its status are kept
call() {
    ended=0
    (cd "$top" && exec sh install.sh "$@") > "$room/said" 2>&1 || ended=$?
}

# shellcheck disable=SC2317 # it is called by seen
said() {
    grep -q -e "$1" "$room/said"
}

# a library as the kit makes new ones, under a name
new_library() {
    (cd "$room" && rt new "$1" start_lib > /dev/null && rm "$1/BUILD.bazel" && mv "$1" "$top/crates/")
}

mkdir -p "$top/crates" "$top/docs"
for part in install.sh scripts examples grammars completions HANDLES README.md; do cp -R "$here/$part" "$top/"; done
cp "$here/docs/vulsangi.1" "$top/docs/"
for library in low middle beside; do new_library "$library"; done
(cd "$room" && rt new vulsangi start_io > /dev/null && rm vulsangi/BUILD.bazel && mv vulsangi "$top/crates/")
printf 'low:\nmiddle: low\nbeside:\nvulsangi: middle beside\n' > "$top/crates.txt"
printf '# crate\tproof\nlow\t10\nmiddle\t12\nbeside\t9\nvulsangi\t20\n' > "$top/docs/gate.tsv"

call --plan "$bin"
seen "--plan says what is needed" said "Of these 4 there stand already: 0"
seen "--plan leaves nothing" test ! -e "$VULSANGI_BUILD"

(cd "$top" && exec sh install.sh "$bin") > "$room/first" 2>&1 &
caller=$!
until grep -q "1 of 4" "$room/first" || ! kill -0 "$caller" 2> /dev/null; do sleep 0.5; done
call "$bin"
seen "a second call beside it is refused" said "is at work in"
kill -TERM "$caller"
ended=0
wait "$caller" || ended=$?
seen "a call that is stopped ends with status 130" test "$ended" = 130
sleep 1
seen "nothing of it goes on" test -z "$(find /proc/[0-9]*/cwd -maxdepth 0 -lname "$VULSANGI_BUILD*" 2> /dev/null)"
seen "nothing is installed yet" test ! -e "$bin/vulsangi"

call "$bin"
seen "the same command goes on" said "there stand already: [1-3]"
seen "and installs the program" test "$ended $(test -x "$bin/vulsangi" && echo there)" = "0 there"
call "$bin"
seen "a call with nothing changed proves nothing" said "there stand already: 4"
seen "and installs" test "$ended" = 0
share=$room/share
seen "with grammars and themes" test -f "$share/vulsangi/grammars/Git Commit.sublime-syntax" -a -f "$share/vulsangi/themes/dusk.json"
seen "a manual page" test -f "$share/man/man1/vulsangi.1"
seen "and completions" test -f "$share/bash-completion/completions/vulsangi" -a -f "$share/zsh/site-functions/_vulsangi" \
    -a -f "$share/fish/vendor_completions.d/vulsangi.fish"

cp "$top/crates/middle/src/lib.rt" "$room/kept.rt"
sed -i 's/^    x$/    x ^ 1/' "$top/crates/middle/src/lib.rt"
call "$bin"
seen "a crate that is not proved is named, with its log" said "middle is not proved; .*$VULSANGI_BUILD/middle.log"
seen "the status is 1" test "$ended" = 1
seen "the program of before stays" test -x "$bin/vulsangi"
cp "$room/kept.rt" "$top/crates/middle/src/lib.rt"

echo other > "$room/mine"
echo mine >> "$share/vulsangi/themes/dawn.json"
cp "$room/mine" "$VULSANGI_BUILD/mine"
call --uninstall
seen "--uninstall takes the program away" test ! -e "$bin/vulsangi"
seen "and what goes with it" test ! -e "$share/vulsangi/grammars" -a ! -e "$share/man/man1/vulsangi.1"
seen "but not what was changed" said "themes/dawn.json is left"
seen "and what was built, but no other file" test "$(ls "$VULSANGI_BUILD")" = mine
call --unknown
seen "a word that is none is refused" test "$ended" = 1
exit "$status"
