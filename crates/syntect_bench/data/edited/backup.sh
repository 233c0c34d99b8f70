#!/bin/sh
# Keeps one archive a day, and tells by mail what went wrong.
set -u

source=/srv/notes
target="$HOME/backups/$(date +%F).tar.gz"

fail() {
    mail -s "backup of $source" admin <<TEXT
The archive ${target##*/} was not written: $1
Free space: `df -h "$HOME" | tail -n 1`
TEXT
    exit 1
}

if [ ! -d "$source" ]; then
    fail 'no such folder'
fi
mkdir -p "${target%/*}" || fail "no folder"
while read -r name; do
    case $name in
        *.tmp | "") continue ;;
        *) echo "$name" ;;
    esac
done < "$source/list" | tar -czf "$target" -T - && echo "done: $((1 + 1)) steps" # both of them
