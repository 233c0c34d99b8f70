#!/bin/sh
# Tries each word of the program vulsangi on small files, with the grammars and themes of this repository laid where it looks
# for them, and compares what it writes with what is expected.
#
#   sh scripts/vulsangi_trial.sh PROGRAM
#
# The last line is how many of how many were seen. The status is 1 where one is missing, which a line names. Text for a terminal is tried
# by the command script, where there is one.
set -eu

[ $# -eq 1 ] || { sed -n '2,8p' "$0" >&2; exit 2; }
here=$(cd "$(dirname "$0")/.." && pwd)
case $1 in /*) program=$1 ;; *) program=$PWD/$1 ;; esac
[ -x "$program" ] || { echo "vulsangi_trial.sh: $1 is no program" >&2; exit 2; }
room=$(mktemp -d)
trap 'rm -rf "$room"' EXIT
good=0
all=0
esc=$(printf '\033')

# the places where the program looks, and nothing of the caller's
mkdir -p "$room/data/vulsangi/grammars" "$room/data/vulsangi/themes" "$room/config" "$room/work"
cp "$here"/grammars/*.sublime-syntax "$room/data/vulsangi/grammars/"
cp "$here"/examples/*.json "$room/data/vulsangi/themes/"
unset NO_COLOR COLORTERM VULSANGI_THEME
export XDG_DATA_HOME="$room/data" XDG_CONFIG_HOME="$room/config" HOME="$room"
cd "$room/work"

# files to show
cat > a.rs << 'END'
// one
fn main() {
    println!("two");
}
END
printf '; a note\nhost = 1\n' > b.ini
printf '#!/bin/sh\necho hi\n' > tool
printf 'fn \351 x\n' > latin.rs
printf 'fn main() {}\033[31m red\n' > escape.rs
seq 20 > lines.txt

# calls the program: its output, its messages and its status are kept
call() {
    status=0
    "$program" "$@" > "$room/out" 2> "$room/err" < /dev/null || status=$?
}

# the same with a text as standard input
call_with() {
    text=$1
    shift
    status=0
    printf '%s\n' "$text" | "$program" "$@" > "$room/out" 2> "$room/err" || status=$?
}

# counts what was seen: the name of what is tried, and a command that succeeds where it is there
seen() {
    name=$1
    shift
    all=$((all + 1))
    if "$@"; then
        good=$((good + 1))
    else
        echo "MISSING: $name"
    fi
}

# whether what was written has this text
out() { grep -q -F -e "$1" "$room/out"; }
no_out() { ! grep -q -F -e "$1" "$room/out"; }
# whether the messages have it
err() { grep -q -F -e "$1" "$room/err"; }
quiet() { [ ! -s "$room/err" ]; }
# whether what was written is this file, or these lines
same() { cmp -s "$1" "$room/out"; }
is() { [ "$(cat "$room/out")" = "$1" ]; }
ended() { [ "$status" = "$1" ]; }

# input
call a.rs
seen "a pipe gets the text as it is" same a.rs
seen "and there is no message" quiet
call a.rs b.ini
cat a.rs b.ini > "$room/both"
seen "and several texts one after another" same "$room/both"
call_with "a text"
seen "standard input without a file" is "a text"
call_with "a text" b.ini - a.rs
seen "- among files" out "a text"
call_with "x = 1" --color always -l ini
seen "-l takes an extension" out "${esc}[0;"
call_with "fn a() {}" -f html --fragment -l rust
seen "-l takes a name without regard to case" out "<span style="
call_with "fn a() {}" -f html --fragment -l nothing
seen "-l of no language" err "vulsangi: no language is called 'nothing'; there are: "
seen "is status 1" ended 1
call_with "fn a() {}" -f html --fragment -l Pythn
seen "-l of a misspelt language" err "vulsangi: no language is called 'Pythn'; is 'Python' meant?"
call chek mine
seen "a misspelt command" err "is the command 'check' meant?"
call_with "fn a() {}" -f classes --fragment
seen "standard input is plain text" out "v-text v-plain"
call_with "fn a() {}" -f classes --fragment --file-name x.rs
seen "--file-name tells the language" out "v-source v-rust"
call -f classes --fragment tool
seen "the first line tells the language" out "shell"
call --color always latin.rs
seen "what is no UTF-8 is U+FFFD" out "$(printf '\357\277\275')"
call --strict latin.rs a.rs
seen "--strict refuses it with its place" err "vulsangi: latin.rs:1:4: "
seen "the next file is shown" out "println"
seen "and the status is 1" ended 1
call missing.rs a.rs
seen "a missing file is told" err "vulsangi: missing.rs: "
seen "and the next one is shown" out "println"
seen "with status 1" ended 1

# colours
call --color always a.rs
seen "--color always" out "${esc}[0;38;5;"
call --color never a.rs
seen "--color never" same a.rs
COLORTERM=truecolor
export COLORTERM
call --color always a.rs
seen "COLORTERM gives 24 bits" out "${esc}[0;38;2;"
unset COLORTERM
NO_COLOR=1
export NO_COLOR
call --color always a.rs
seen "--color always against NO_COLOR" out "${esc}["
unset NO_COLOR
call --color always escape.rs
seen "control characters are shown as signs" no_out "${esc}[31m"
call --color always a.rs b.ini
seen "files have headings" out "${esc}[0;1mb.ini"
if command -v script > /dev/null; then
    script -qec "'$program' a.rs" /dev/null > "$room/out" 2> "$room/err" < /dev/null || true
    seen "a terminal gets colours" out "${esc}[0;38;5;"
    NO_COLOR=1 script -qec "'$program' a.rs" /dev/null > "$room/out" 2> "$room/err" < /dev/null || true
    seen "but not with NO_COLOR" no_out "${esc}["
    NO_COLOR=1 script -qec "'$program' a.rs b.ini" /dev/null > "$room/out" 2> "$room/err" < /dev/null || true
    seen "headings without colours" out "==> b.ini <=="
fi

# lines
call -r 2:3 lines.txt
seen "-r 2:3" is "2
3"
call -r :2 lines.txt
seen "-r :2" is "1
2"
call -r 19: lines.txt
seen "-r 19:" is "19
20"
call -r 4:+1 -r 9 lines.txt
seen "-r twice" is "4
5
9"
call -r 9:3 lines.txt
seen "-r 9:3 is wrong" err "vulsangi: '9:3' names no lines"
seen "which is status 2" ended 2
call -n -r 9:10 lines.txt
seen "-n numbers" is "   9 9
  10 10"
call -n --color always a.rs
seen "-n in colours" out "${esc}[0;2m   1${esc}[0m "
call --color always -H 2 a.rs
seen "-H marks" out "${esc}[0;48;5;237;"
seen "and nothing else" [ "$(grep -c -F "${esc}[K" "$room/out")" = 1 ]
call -f html -H 2:3 a.rs
seen "-H in HTML" out 'class="line marked"'
call -f html -n -r 2:3 a.rs
seen "-n in HTML" out 'data-line="3"'
seen "-r in HTML" no_out 'data-line="4"'

# formats
call -f html a.rs
seen "-f html is a document" out "<!DOCTYPE html>"
seen "with its title" out "<title>a.rs</title>"
seen "that ends" out "</html>"
call -f html --fragment a.rs
seen "--fragment is a part" no_out "<html"
seen "with a pre" out "<pre style=\"background-color:#1d2033;\">"
call -f html a.rs b.ini
seen "files have headings in HTML" out "<h2>b.ini</h2>"
call -f classes a.rs
seen "-f classes has its sheet" out ".v-comment"
seen "and its classes" out 'class="v-code"'
call -f classes --light dawn --dark dusk a.rs
seen "-f classes for light and dark" out "prefers-color-scheme: light"
call -f css --theme dawn
seen "-f css" out ".v-comment"
call -f css --light dawn --dark ink
seen "-f css for two themes" out "prefers-color-scheme: dark"
call -f html --light dawn a.rs
seen "--light without a sheet" err "vulsangi: --light and --dark are for"
seen "is wrong" ended 2
call -f latex a.rs
seen "-f latex is a document" out '\documentclass'
seen "in colours" out '\textcolor[RGB]'
call -f latex --fragment a.rs
seen "-f latex --fragment" no_out '\documentclass'
call -f word a.rs
seen "-f of no format" err "vulsangi: invalid value 'word'"
seen "is wrong too" ended 2
call -o made.html -f html a.rs
seen "-o writes a file" grep -q "<title>a.rs</title>" made.html
seen "and nothing else" [ ! -s "$room/out" ]
call -o missing/made.html -f html a.rs
seen "-o where there is no folder" err "vulsangi: missing/made.html: "
seen "has status 1" ended 1

# themes
call -f html --fragment --theme dawn a.rs
seen "--theme by name" out "background-color:#"
seen "which is another" no_out "#1d2033"
cp "$here/examples/ink.json" mine.json
call -f html --fragment --theme mine.json a.rs
seen "--theme by file" ended 0
echo "no theme" > dusk
call -f html --fragment --theme dusk a.rs
seen "a name comes before a file" out "#1d2033"
call -f html --fragment --theme ./dusk a.rs
seen "a path is a file" err "vulsangi: ./dusk: "
call -f html --theme none a.rs
seen "--theme of none" err "vulsangi: no theme is called 'none'; there are: dawn, dusk, ink"
VULSANGI_THEME=dawn
export VULSANGI_THEME
call -f html --fragment a.rs
seen "VULSANGI_THEME" no_out "#1d2033"
unset VULSANGI_THEME

# lists
call -L
seen "-L" out "Rust                     rs"
call --list-languages
seen "--list-languages" out "Python"
call --list-themes
seen "--list-themes" is "dawn
dusk
ink"
call --list-themes --color always
seen "--list-themes with samples" out "moons"

# one's own
mkdir -p own "$room/config/vulsangi"
cat > own/Note.sublime-syntax << 'END'
%YAML 1.2
---
name: Note
scope: text.note
file_extensions: [note]
contexts:
  main:
    - match: TODO
      scope: keyword.todo.note
END
echo "a TODO" > x.note
call --grammars own -f classes --fragment x.note
seen "--grammars" out "v-todo"
printf 'name: Broken\nscope: [\n' > "$room/config/vulsangi/Broken.sublime-syntax"
call -f classes --fragment a.rs
seen "a faulty grammar of one's own is told with its place" err "Broken.sublime-syntax:"
seen "and the rest works" out "v-source v-rust"
rm "$room/config/vulsangi/Broken.sublime-syntax"
mkdir -p "$room/config/vulsangi/themes"
sed 's/#1d2033/#010203/' "$here/examples/dusk.json" > "$room/config/vulsangi/themes/dusk.json"
call -f html --fragment a.rs
seen "a theme of one's own wins" out "#010203"
rm "$room/config/vulsangi/themes/dusk.json"
call --grammars nowhere -f html a.rs
seen "--grammars of no folder" err "vulsangi: nowhere"

# themes of other editors
cat > mono.tmTheme << 'END'
<?xml version="1.0" encoding="UTF-8"?>
<!DOCTYPE plist PUBLIC "-//Apple//DTD PLIST 1.0//EN" "http://www.apple.com/DTDs/PropertyList-1.0.dtd">
<!-- a <comment> -->
<plist version="1.0">
<dict>
  <key>name</key><string>Mono &amp; more</string>
  <key>settings</key>
  <array>
    <dict><key>settings</key><dict><key>background</key><string>#0a0b0c</string><key>foreground</key><string>#f0f0f0</string></dict></dict>
    <dict><key>scope</key><string>comment</string><key>settings</key><dict><key>foreground</key><string>#0000ff</string></dict></dict>
  </array>
</dict>
</plist>
END
call convert mono.tmTheme
seen "convert of a property list" out '"name": "Mono & more"'
cp "$room/out" mono.json
call -f html --fragment --theme mono.json a.rs
seen "gives a theme" out "background-color:#0a0b0c"
seen "with its rules" out "color:#0000ff"
cat > code.json << 'END'
{
  // a comment
  "name": "Code",
  "colors": { "editor.background": "#0d0e0f", "editor.foreground": "#fafafa", },
  "tokenColors": [
    { "scope": ["comment", "string"], "settings": { "foreground": "#00ff00", "fontStyle": "italic" } }, /* the last */
  ],
}
END
call convert code.json -o code-theme.json
seen "convert of tokenColors" grep -q -F '"scope": "comment, string"' code-theme.json
call -f html --fragment --theme code-theme.json a.rs
seen "gives a theme, too" out "background-color:#0d0e0f"
seen "with its colours" out "color:#00ff00"
printf '{\n  "tokenColors": [ 1 2 ]\n}\n' > faulty.json
call convert faulty.json
seen "convert tells the place of a fault" err "vulsangi: faulty.json:2:"
seen "with status 1 of its own" ended 1
call convert
seen "convert of nothing" ended 2

# for writers of grammars
mkdir -p mine
cat > mine/Note.sublime-syntax << 'END'
name: Note
scope: text.note
file_extensions: [note]
contexts:
  main:
    - match: '(TODO)'
      captres:
        1: keyword.other.note
END
call check mine
seen "check tells a misspelt key" out 'warning[V101]: `captres` means nothing; is `captures` meant?'
seen "with its place" out " --> mine/Note.sublime-syntax:7:7"
seen "and its line" out "7 |       captres:"
seen "a warning is no error" ended 0
call check -f json mine
seen "check as JSON" out '"line": 7, "column": 7'
call check -f sarif mine
seen "check as SARIF" out '"startLine": 7, "startColumn": 7'
if command -v python3 > /dev/null; then
    seen "which is JSON" python3 -c 'import json,sys; json.load(open(sys.argv[1]))' "$room/out"
fi
sed 's/captres/captures/' mine/Note.sublime-syntax > note.tmp && mv note.tmp mine/Note.sublime-syntax
call check mine
seen "check of a sound grammar" is "loaded: grammars 1, themes 0; found: errors 0, warnings 0, notes 0"
printf "scope: text.b\ncontexts:\n  main:\n    - match: '(a'\n" > mine/B.sublime-syntax
call check mine/B.sublime-syntax
seen "check tells what is wrong with a pattern" out 'error[V001]: the pattern ends where `)` is wanted'
seen "at its end" out "B.sublime-syntax:4:17"
seen "an error is status 1" ended 1
call check nowhere
seen "check of nothing" out "error[V003]"
rm mine/B.sublime-syntax
call check --explain V101
seen "check --explain" out "V101 (warning): unknown key"
call check --explain V999
seen "--explain of no number" ended 1
cat > test.note << 'END'
# SYNTAX TEST "Note.sublime-syntax"
a TODO
# ^^^^ keyword.other
# <- text.note - keyword
END
call test --grammars mine test.note
seen "a test that holds" out "test.note: 5 columns, 0 of them wrong"
sed 's/keyword.other/string/' test.note > wrong.note
call test --grammars mine wrong.note
seen "a test that doesn't" out "wrong.note:2:3: string is wanted, and there is text.note keyword.other.note"
seen "is status 1" ended 1
mkdir -p tests && cp test.note tests/syntax_test_note.note
call test --grammars mine tests
seen "the tests of a folder" out "tests/syntax_test_note.note: 5 columns, 0 of them wrong"
printf '# SYNTAX TEST "Note.sublime-syntax"\na\n' > empty.note
call test --grammars mine empty.note
seen "a test that says nothing" ended 1
call scopes --grammars mine test.note
seen "scopes of a file" out "2:3-6 text.note keyword.other.note"
call scopes --grammars mine --theme dusk test.note:2:3
seen "scopes of a place" out "scope   keyword.other.note"
seen "and the entry that gave it" out "        Note, main: match (TODO), group 1"
seen "and its rule" out "by      keyword"
call scopes --grammars mine test.note:9:1
seen "scopes of no place" err "vulsangi: test.note:9:1: nothing stands there"
printf '{"settings": [{"scope": "a", "settings": {"foreground": "blue"}}]}' > mine/t.tmTheme
call check mine/t.tmTheme
seen "check of a theme" out 'warning[V302]: `blue` is no colour'
mkdir -p void
call check void
seen "check of nothing at all" out "error[V004]"
printf 'scope: text.c\nfile_extensions: [cc1]\ncontexts:\n  main:\n    - match: x\n      push: nowhere\n' > mine/C.sublime-syntax
printf 'a\nx\n' > a.cc1
call --grammars mine --color always a.cc1
seen "a line that is refused" err "vulsangi: a.cc1: shown plain"
seen "is shown plain" out "x"
seen "with status 1" ended 1
rm mine/C.sublime-syntax mine/t.tmTheme

# what is not for showing, and what is not for writing
printf 'a\0b\n' > bin.rs
call --color always bin.rs
seen "a binary file" err "vulsangi: bin.rs: a binary file"
call bin.rs
seen "passes in a pipe" same bin.rs
call latin.rs
seen "and so do other bytes" same latin.rs
cp a.rs kept.rs
call -f html kept.rs -o kept.rs
seen "-o of an input" err "kept.rs: the output would be written over it"
seen "changes nothing" cmp -s a.rs kept.rs
call_with "$(printf '\033[1mdiff --git a/x b/x\033[m\n\033[31m-a\033[m')" --color always
seen "a diff with colours of its own" no_out "␛"
call convert mono.tmTheme -o deep/er/mono.json
seen "convert makes the folder" [ -s deep/er/mono.json ]
call -f classes --light dawn --dark dusk a.rs
seen "a page for light and dark screens has its ground" out "color-scheme: light dark"

# words
call --help
seen "--help" out "Examples:"
seen "has status 0" ended 0
call --version
seen "--version" out "vulsangi "
call --nothing
seen "no such word" err "vulsangi: unexpected argument '--nothing' found"
seen "is status 2" ended 2
i=0
while [ "$i" -lt 200 ]; do cat "$here/examples/texts/orbit.rs"; i=$((i + 1)); done > long.rs
{ "$program" --color always long.rs 2> "$room/err" || echo "$?" > "$room/status"; } | head -n 1 > "$room/out"
seen "a pipe that is closed ends it quietly" quiet
seen "with status 0" [ ! -e "$room/status" ]

echo "$good of $all"
[ "$good" = "$all" ]
