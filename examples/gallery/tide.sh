#!/bin/sh
# keeps the last seven copies
set -eu
copies=${1:-/var/backups}
for file in "$copies"/*.tar.gz; do
    [ "$(date -r "$file" +%s)" -lt $(($(date +%s) - 7 * 86400)) ] && rm -- "$file"
done
echo "kept: $(ls "$copies" | wc -l)" >&2
