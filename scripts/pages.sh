#!/bin/sh
# Makes the pages of examples/pages anew: a text as HTML with classes, its style sheet for light and dark screens, and the
# text for LaTeX.
#
#   sh scripts/pages.sh [FOLDER]
#
# FOLDER is where they are put; without the word it is examples/pages. The program syntect_example_pages is proved and built first,
# with the Rattle kit's command rt, where it isn't yet.
set -eu

here=$(cd "$(dirname "$0")/.." && pwd)
folder=${1:-"$here/examples/pages"}
mkdir -p "$folder"
folder=$(cd "$folder" && pwd)

# the first run proves and builds the program
cd "$here/crates/syntect_example_pages"
rt run -- css "$here/examples/dawn.json" "$here/examples/dusk.json" > /dev/null
pages=$here/crates/syntect_example_pages/out/syntect_example_pages

cd "$here/examples"
"$pages" html grammars texts/orbit.rs pages.css > "$folder/orbit.html"
"$pages" css dawn.json dusk.json > "$folder/pages.css"
"$pages" tex grammars dawn.json texts/orbit.rs > "$folder/orbit.tex"
