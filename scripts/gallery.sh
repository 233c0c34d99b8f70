#!/bin/sh
# Makes the pictures of docs/gallery anew: ten languages as a page, and a text in a terminal, on light and on dark ground.
#
#   sh scripts/gallery.sh PROGRAM [FOLDER]
#
# PROGRAM is vulsangi; FOLDER is where the pictures are put, docs/gallery without the word. The pages are shown by the browser
# chromium, the terminal by xterm on a screen of Xvfb, and ImageMagick cuts the pictures.
set -eu

[ $# -ge 1 ] || { sed -n '2,7p' "$0" >&2; exit 2; }
here=$(cd "$(dirname "$0")/.." && pwd)
case $1 in /*) program=$1 ;; *) program=$PWD/$1 ;; esac
folder=${2:-"$here/docs/gallery"}
mkdir -p "$folder"
folder=$(cd "$folder" && pwd)
for needed in chromium Xvfb xterm import convert; do
    command -v "$needed" > /dev/null || { echo "gallery.sh: there is no $needed" >&2; exit 1; }
done
room=$(mktemp -d)
screen=
trap 'kill $screen 2> /dev/null || true; rm -rf "$room"' EXIT
mkdir -p "$room/data/vulsangi/grammars" "$room/data/vulsangi/themes" "$room/config"
cp "$here"/grammars/*.sublime-syntax "$room/data/vulsangi/grammars/"
cp "$here"/examples/*.json "$room/data/vulsangi/themes/"
unset NO_COLOR VULSANGI_THEME
export XDG_DATA_HOME="$room/data" XDG_CONFIG_HOME="$room/config" HOME="$room" COLORTERM=truecolor

# a page of all texts by a theme, and its picture
page() {
    (cd "$here/examples/gallery" && "$program" -f html --theme "$1" -o "$room/page.html" tide.py tide.js tide.go tide.c tide.sql \
        tide.sh tide.css tide.md tide.yaml tide.html)
    chromium --headless --no-sandbox --disable-gpu --hide-scrollbars --window-size=720,2640 "--screenshot=$room/page.png" \
        "file://$room/page.html" > "$room/log" 2>&1
    convert "$room/page.png" -trim +repage -strip +dither -colors 128 "$folder/$2"
}

# a text in a terminal by a theme, on a ground and in letters of these colours
terminal() {
    Xvfb :97 -screen 0 1200x900x24 > "$room/log" 2>&1 &
    screen=$!
    sleep 2
    DISPLAY=:97 xterm -geometry 98x32 -fa 'DejaVu Sans Mono' -fs 11 -bg "$2" -fg "$3" -b 8 +sb -e sh -c \
        "'$program' -n -H 12 -r :30 --color always --theme $1 '$here/examples/texts/orbit.rs'; sleep 20" > "$room/log" 2>&1 &
    sleep 6
    DISPLAY=:97 import -window root "$room/terminal.png"
    kill "$screen"
    wait "$screen" || true
    screen=
    convert "$room/terminal.png" -bordercolor black -trim +repage -strip +dither -colors 128 "$folder/$4"
}

page dusk page-dark.png
page dawn page-light.png
terminal dusk '#1c1e26' '#d8dae3' terminal-dark.png
terminal dawn '#faf8f2' '#24292f' terminal-light.png
ls "$folder"
