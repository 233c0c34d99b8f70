#!/bin/sh
# Builds a program without any proof, to see it run or to measure an idea before it is proved. It is not known to be safe,
# and it has checks that the proved program lacks, so that it takes about half as long again. What it is good for in
# measuring is the ratio of two such programs.
#
#   sh scripts/unproved.sh [--say] CRATE PROGRAM
#
# CRATE is a crate with a main, PROGRAM the file that is written, in one move. --say tells each step as it begins. It takes
# some two minutes on four processors. OPTIMIZE in the environment is clang's level, 2 where there is none.
#
# The kit's `rt try` makes an LLVM module of the program and has the kit's clang compile it, with checks and without
# optimizing. Here rt runs in a folder that looks like the kit, whose clang is a script: it keeps the module, whole as it is
# then, and ends the try, and the kit's own clang compiles what was kept. The small modules by which a try asks what clang
# can do are handed on. Beside its work a try looks for names that a check will refuse; that is left out.
set -eu

telling=
[ "${1:-}" != --say ] || { telling=yes; shift; }
[ $# -eq 2 ] || { sed -n '2,16p' "$0"; exit 2; }
here=$(cd "$(dirname "$0")/.." && pwd)
crate=$1
case $2 in /*) program=$2 ;; *) program=$PWD/$2 ;; esac
if [ ! -f "$here/crates/$crate/src/main.rt" ]; then
    echo "unproved.sh: crates/$crate is no crate with a main" >&2
    exit 2
fi
kit=$(dirname "$(rt doc)")
room=$(mktemp -d)
child=
trap 'rm -rf "$room"' EXIT
trap 'kill $child 2> /dev/null || true; wait; exit 130' INT TERM HUP
start=$(date +%s)

# the step that begins, where steps are told
say() {
    [ -z "$telling" ] || printf '%3d s  %s\n' "$(($(date +%s) - start))" "$1"
}

# runs a command so that an interrupt ends it; its words go to the log
run() {
    "$@" >> "$room/log" 2>&1 < /dev/null &
    child=$!
    status=0
    wait "$child" || status=$?
    child=
    return "$status"
}

# what went wrong, and its log
failed() {
    cat "$room/log" >&2
    echo "unproved.sh: $1" >&2
    exit 1
}

# the kit as links, but for rt itself, which looks for the kit where its file is, and for the two scripts
mkdir -p "$room/kit/bin" "$room/kit/toolchain/bin" "$room/tmp"
for part in "$kit"/* "$kit"/bin/* "$kit"/toolchain/* "$kit"/toolchain/bin/*; do
    at=${part#"$kit/"}
    case $at in
        bin | toolchain | toolchain/bin | toolchain/bin/clang | bin/rattle) ;;
        bin/rt | bin/rtlib.py) cp "$part" "$room/kit/$at" ;;
        *) ln -s "$part" "$room/kit/$at" ;;
    esac
done
cat > "$room/kit/toolchain/bin/clang" << END
#!/bin/sh
case " \$* " in
    *" -fsanitize="*)
        cp module.bc "$room/part.bc" && mv "$room/part.bc" "$room/program.bc"
        echo "unproved.sh: the module is kept, and the try ends" >&2
        exit 1
        ;;
esac
exec "$kit/toolchain/bin/clang" "\$@"
END
cat > "$room/kit/bin/rattle" << END
#!/bin/sh
case " \$* " in
    *" --start no function "*) exit 0 ;;
esac
exec "$kit/bin/rattle" "\$@"
END
chmod 755 "$room/kit/toolchain/bin/clang" "$room/kit/bin/rattle"

say "reading the text of $crate and of what it stands on, and translating it"
cd "$here/crates/$crate"
run env TMPDIR="$room/tmp" "$room/kit/bin/rt" try --seconds 1 --steps 1000 || true
[ -s "$room/program.bc" ] || failed "rt try made no module of $crate"
: > "$room/log"
say "compiling it"
run "$kit/toolchain/bin/clang" --target=x86_64-unknown-linux-gnu --sysroot="$kit/toolchain" --no-default-config \
    -ffunction-sections -fdata-sections -fPIE "-O${OPTIMIZE:-2}" -c -x ir "$room/program.bc" -o "$room/program.o" ||
    failed "clang does not compile $crate"
run "$kit/bin/rattle-link" --target x86_64-unknown-linux-gnu --toolchain "$kit/toolchain" -o "$room/program" \
    "$room/program.o" "$kit/c/libos_c.a" "$kit/c/liblibc_c.a" || failed "the linker does not make $crate"
cp "$room/program" "$program.$$"
chmod 755 "$program.$$"
mv -f "$program.$$" "$program"
[ -n "$telling" ] || echo "$crate is built without proof"
