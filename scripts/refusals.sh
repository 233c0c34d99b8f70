#!/bin/sh
# Refuses each request for memory in turn, and looks at what edits of a buffer make of it.
#
#   sh scripts/refusals.sh
#
# The program crates/syntect_bench shows some edits: the buffer before an edit, the answer, the buffer behind it, and after the
# answer Memory the same edit once more. It is proved and built first, with the Rattle kit's command rt, where it
# isn't yet. Then it is run with one request for memory refused, from the first request of an edit to the last, by a small
# library in C that stands before the system's own; the C compiler is CC, or else cc.
#
# Each edit has to answer Memory with the buffer as it was, and then, once more, what it answers undisturbed; or that at
# once. Prints how many requests there are, and of how many of them an edit answered Memory. Ends with status 1, and shows what
# differs, if something does.
set -eu

here=$(cd "$(dirname "$0")/.." && pwd)
folder=$(mktemp -d)
trap 'rm -rf "$folder"' EXIT
cd "$here/crates/syntect_bench"
[ -x out/syntect_bench ] || rt run -- shown edits > /dev/null
program=$here/crates/syntect_bench/out/syntect_bench

cat > "$folder/refuse.c" <<'END'
#define _GNU_SOURCE
#include <dlfcn.h>
#include <stdlib.h>
#include <unistd.h>
static long left = -1;
static int refused(void) {
    if (left < 0) {
        const char *which = getenv("REFUSED_REQUEST");
        left = which ? atol(which) : 0;
    }
    if (left == 0 || --left) return 0;
    if (write(2, "refused\n", 8) != 8) _exit(9);
    return 1;
}
void *malloc(size_t size) {
    static void *(*next)(size_t);
    if (!next) next = (void *(*)(size_t))dlsym(RTLD_NEXT, "malloc");
    return refused() ? NULL : next(size);
}
void *realloc(void *old, size_t size) {
    static void *(*next)(void *, size_t);
    if (!next) next = (void *(*)(void *, size_t))dlsym(RTLD_NEXT, "realloc");
    return refused() ? NULL : next(old, size);
}
END
"${CC:-cc}" -shared -fPIC -O1 -o "$folder/refuse.so" "$folder/refuse.c"

# Compares a run with the undisturbed one, which is read first. Of an edit there are its name, the lines before it, an answer
# and the lines behind it, and after Memory another answer and the lines behind that.
cat > "$folder/compare.awk" <<'END'
FNR == NR { whole[++count] = $0; next }
!fault && /^answer Memory$/ {
    print request >> memory
    getline
    if ($0 != before || whole[at + 1] !~ /^answer/) fault = "the buffer has changed: " $0
    next
}
!fault {
    if (/^lines/) before = $0
    if ($0 != whole[++at]) fault = "not as undisturbed: " $0
}
END {
    if (!fault && at != count) fault = "edits are missing"
    if (fault) { print "request " request ": " substr(fault, 1, 200); exit 1 }
}
END

# runs the program on words with a request refused; fails where that was none of an edit
run() {
    refused=$1
    shift
    LD_PRELOAD="$folder/refuse.so" REFUSED_REQUEST=$refused "$program" "$@" > "$folder/run" 2> "$folder/told"
}

# whether this request and the two after it may be refused and the program goes on, as with those of an edit; of the requests
# before the first edit, which end the program, it can do without one here and there
goes_on() {
    from=$1
    shift
    run "$from" "$@" && run $((from + 1)) "$@" && run $((from + 2)) "$@"
}

# the first request of an edit, behind one that ends the program
first_request() {
    before=$1
    shift
    width=1
    until goes_on $((before + width)) "$@"; do
        before=$((before + width))
        width=$((2 * width))
    done
    first=$((before + width))
    while [ $((before + 1)) -lt "$first" ]; do
        middle=$(((before + first) / 2))
        if goes_on "$middle" "$@"; then first=$middle; else before=$middle; fi
    done
}

status=0
refuse_each() {
    : > "$folder/memory"
    "$program" "$@" > "$folder/whole"
    first_request 0 "$@"
    request=$first
    while :; do
        if ! run "$request" "$@"; then
            [ -s "$folder/memory" ] && { echo "request $request: the program ends otherwise"; exit 1; }
            first_request "$request" "$@"
            request=$first
            continue
        fi
        grep -q '^refused$' "$folder/told" || break
        awk -v request="$request" -v memory="$folder/memory" -f "$folder/compare.awk" \
            "$folder/whole" "$folder/run" || status=1
        request=$((request + 1))
    done
    edits=$(grep -c '^edit' "$folder/whole")
    answered=$(wc -l < "$folder/memory")
    echo "$edits edits: $((request - first)) requests; to $answered of them the answer was Memory"
}

refuse_each shown edits
refuse_each shown edits long
exit "$status"
