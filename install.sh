#!/bin/sh
# Builds the program vulsangi, proved, and puts it on the user's path, with grammars, themes, its manual page and completions; or
# shows it at once, without a proof.
#
#   sh install.sh [FOLDER]              proves and builds it, and puts it into FOLDER, or else into $HOME/.local/bin
#   sh install.sh --plan [FOLDER]       says what that needs, what of it is here and how long it takes, and does nothing
#   sh install.sh --try                 builds it without any proof, in a minute or two, and shows a file in colour
#   sh install.sh --uninstall           takes away what the other words have made
#   sh install.sh --help                shows these lines
#
# What goes with it is laid into share beside a FOLDER that is called bin, and else into XDG_DATA_HOME or $HOME/.local/share.
# VULSANGI_PROGRAM=syncat in the environment is for the smaller program syncat, which takes its grammars and theme from its words.
#
# The Rattle kit's command rt has to be on the path. What is built stays in the folder VULSANGI_BUILD, or else in the user's
# cache, $HOME/.cache/vulsangi: a later call takes what has changed, and one that was stopped, with Ctrl-C or otherwise, is
# taken up by the same command. JOBS in the environment is how many processors are taken; without it all are.
set -eu

here=$(cd "$(dirname "$0")" && pwd)
build=${VULSANGI_BUILD:-"${XDG_CACHE_HOME:-${HOME:?}/.cache}/vulsangi"}
program=${VULSANGI_PROGRAM:-vulsangi}
state=
workers=

# ends with a line on standard error
stop() {
    echo "install.sh: $1" >&2
    exit 1
}

# the crate and all that it stands on, lowest first
below() {
    awk -F: -v crate="$1" '
        function visit(name, words, n, i) {
            if (seen[name]++) return
            n = split(uses[name], words, " ")
            for (i = 1; i <= n; i++) if (words[i] in uses) visit(words[i])
            print name
        }
        /^[^#]/ && NF > 1 { uses[$1] = $2 }
        END { visit(crate) }
    ' "$here/crates.txt"
}

# A sum of the texts of a crate and of all that it stands on, with the kit's name: what is built stands as long as it stays.
sum_of() {
    for library in $(below "$1"); do cat "$sums/$library"; done | sha256sum | cut -d ' ' -f 1
}

# a sum of a crate's own text in a repository or a copy of it, and of the kit's name
sum_of_text() {
    (
        echo "$kit"
        grep "^$2:" "$1/crates.txt"
        cd "$1/crates/$2"
        find src specs proofs -type f 2> /dev/null | LC_ALL=C sort | tr '\n' '\0' | xargs -0 sha256sum
    ) | sha256sum
}

# the sum of each crate's own text, a file a crate
sum_texts() {
    for library in $(below "$program"); do
        sum_of_text "$here" "$library" > "$sums/$library"
    done
}

# whether a crate is built of the text that stands here
stands() {
    [ "$(cat "$build/$1/sum" 2> /dev/null)" = "$(sum_of "$1")" ] || return 1
    if [ "$1" = "$program" ]; then
        [ -x "$build/$1/crates/$1/out/$1" ]
    else
        [ -d "$build/$1/crates/$1/out/rlib" ]
    fi
}

# copies a crate's text into a folder of crates
text_of() {
    mkdir -p "$2/$1"
    for part in src specs proofs; do
        rm -rf "${2:?}/$1/$part"
        if [ -d "$here/crates/$1/$part" ]; then
            cp -R "$here/crates/$1/$part" "$2/$1/"
        fi
    done
}

# Puts a built library into a folder: by links, as its files are only read and all folders together would copy some 25 GB.
# What tells that it fits is a file of the folder's own.
linked() {
    if cp -Rl "$1" "$2/" 2> /dev/null; then
        rm -f "${2:?}/rlib/stamp"
        cp "$1/stamp" "$2/rlib/"
    else
        rm -rf "${2:?}/rlib"
        cp -R "$1" "$2/"
    fi
}

# Makes a crate's folder, with the libraries that it stands on: rt works in a library's folder one at a time, so that crates
# side by side need folders apart.
lay_out() {
    lane="$build/$1"
    rm -f "$lane/sum"
    mkdir -p "$lane/crates"
    cp "$here/HANDLES" "$lane/"
    : > "$lane/crates.txt"
    for library in $(below "$1"); do
        grep "^$library:" "$here/crates.txt" >> "$lane/crates.txt"
        text_of "$library" "$lane/crates"
        if [ "$(sum_of_text "$lane" "$library")" != "$(cat "$sums/$library")" ]; then
            echo "the text of $library was changed meanwhile, or could not be copied"
            return 1
        fi
        if [ "$library" != "$1" ]; then
            rm -rf "$lane/crates/$library/out"
            mkdir -p "$lane/crates/$library/out"
            linked "$build/$library/crates/$library/out/rlib" "$lane/crates/$library/out"
        fi
    done
}

# Proves and builds the program in its crate's folder, and shows a file with it, so that what is installed has run.
run_once() {
    set -- --jobs "$1" --
    case $program in
        syncat) set -- "$@" "$here/examples/grammars" "$here/examples/dusk.json" html ;;
        *) set -- "$@" --grammars "$here/grammars" --theme "$here/examples/dusk.json" --format html ;;
    esac
    exec rt run "$@" "$here/examples/texts/settings.ini"
}

# Proves one crate by so many jobs. When rt ends, so does all that it has started; its number stands in a file meanwhile.
prove() {
    lay_out "$1" || return 1
    cd "$build/$1/crates/$1" || return 1
    [ ! -e "$state/over" ] || return 1
    if [ "$1" = "$program" ]; then
        run_once "$2" &
    else
        rt lib --jobs "$2" &
    fi
    echo $! > "$state/$1.pid"
    proved=0
    wait $! || proved=$?
    rm -f "$state/$1.pid"
    [ "$proved" = 0 ] && sum_of "$1" > "$build/$1/sum"
}

# The seconds that docs/gate.tsv has, gone through with what stands already: a line with the seconds of all crates that are
# left and of the longest chain of them, and the names of that chain.
left() {
    for library in $crates; do
        [ ! -e "$state/$library.done" ] || echo "$library"
    done | awk -v crate="$program" '
        function reach(name, words, n, i, best) {
            if (name in far) return far[name]
            n = split(uses[name], words, " ")
            for (i = 1; i <= n; i++)
                if (words[i] in uses && reach(words[i]) > best) {
                    best = far[words[i]]
                    next_one[name] = words[i]
                }
            far[name] = best + (name in done ? 0 : seconds[name] + 1)
            all += far[name] - best
            return far[name]
        }
        FILENAME == "-" { done[$1] = 1; next }
        FILENAME ~ /tsv$/ { if (!/^#/) seconds[$1] = $2; next }
        /^[^#]/ { split($0, parts, ":"); uses[parts[1]] = parts[2] }
        END {
            reach(crate)
            printf "%d %d", all, far[crate]
            for (name = crate; name != ""; name = next_one[name]) printf " %s", name
            print ""
        }
    ' - "$here/docs/gate.tsv" "$here/crates.txt"
}

# The seconds of the table that what is left takes at least: the longest chain, or all of them, as many at a time as there
# are places.
least() {
    # shellcheck disable=SC2046
    set -- $(left)
    all_left=$(($1 / places))
    echo $((all_left > $2 ? all_left : $2))
}

# The minutes that are left: the table's seconds, as much longer as they took so far; a quarter longer at first. Crates that
# were taken from kept work tell nothing of the others, so that it is never less than three quarters of the seconds.
minutes_left() {
    now_left=$(least)
    gone=$(($(date +%s) - start))
    passed=$((first_left - now_left))
    seconds=$((now_left * 5 / 4))
    [ "$passed" -le 120 ] || seconds=$((now_left * gone / passed))
    [ "$seconds" -ge $((now_left * 3 / 4)) ] || seconds=$((now_left * 3 / 4))
    echo $(((seconds + 59) / 60))
}

# how many jobs a crate beside the longest chain has: more than one where it takes so long that it would hold it up
jobs_of() {
    awk -v crate="$1" -v processors="$processors" '
        $1 == crate { print ($2 > 200 && processors > 1) ? int((processors + 1) / 2) : 1; said = 1 }
        END { if (!said) print 1 }
    ' "$here/docs/gate.tsv"
}

# waits until the libraries stand that a crate stands on
ready() {
    for library in $(below "$1"); do
        [ "$library" != "$1" ] || continue
        until [ -e "$state/$library.done" ]; do
            [ ! -e "$state/over" ] || return 1
            sleep 0.2
        done
    done
}

# waits for one of the places beside the longest chain, and takes it
taken() {
    slot=none
    while [ "$slot" = none ]; do
        [ ! -e "$state/over" ] || return 1
        for number in $(seq "$others"); do
            if mkdir "$state/slot.$number" 2> /dev/null; then
                slot=$number
                break
            fi
        done
        [ "$slot" != none ] || sleep 0.2
    done
}

# how many crates stand
count_done() {
    set -- "$state"/*.done
    [ -e "$1" ] || set --
    echo $#
}

# Waits for what a crate needs, proves it, and says so. Nothing of the longest chain waits for a place.
work() {
    ready "$1" || return 0
    slot=none
    jobs=$processors
    case " $chain " in
        *" $1 "*) ;;
        *)
            jobs=$(jobs_of "$1")
            taken || return 0
            ;;
    esac
    if (prove "$1" "$jobs") > "$build/$1.log" 2>&1 < /dev/null; then
        : > "$state/$1.done"
        now=$(($(date +%s) - start))
        printf '%3d:%02d  %2d of %d  %-24s %s\n' $((now / 60)) $((now % 60)) "$(count_done)" "$all" "$1" \
            "some $(minutes_left) min left"
    elif mkdir "$state/over" 2> /dev/null; then
        echo "install.sh: $1 is not proved; what was said stands in $build/$1.log, at its end:" >&2
        tail -n 4 "$build/$1.log" >&2
    fi
    [ "$slot" = none ] || rmdir "$state/slot.$slot" 2> /dev/null || true
}

# Ends what is at work: no crate is begun any more, and each rt is told to end, by its number.
end_work() {
    mkdir "$state/over" 2> /dev/null || true
    for worker in $workers; do
        while kill -0 "$worker" 2> /dev/null; do
            for file in "$state"/*.pid; do
                [ ! -e "$file" ] || kill "$(cat "$file")" 2> /dev/null || true
            done
            sleep 0.1
        done
    done
}

# what is to be done at an interrupt
interrupted() {
    trap '' INT TERM HUP
    end_work
    echo "install.sh: stopped; the same command goes on from here" >&2
    exit 130
}

# The state of this call. One that changes what is proved has it in the build folder, and is alone there.
take_state() {
    trap '[ -z "$state" ] || rm -rf "$state"; rmdir "$build/unproved" "$build" 2> /dev/null || true' EXIT
    if [ "$word" = plan ] || [ "$word" = try ]; then
        state=$(mktemp -d)
        sums=$state
        return 0
    fi
    mkdir -p "$build"
    if ! mkdir "$build/state" 2> /dev/null; then
        other=$(cat "$build/state/owner" 2> /dev/null || echo none)
        if [ "$other" != none ] && kill -0 "$other" 2> /dev/null; then
            stop "another call, process $other, is at work in $build"
        fi
        rm -rf "${build:?}/state"
        mkdir "$build/state"
    fi
    state=$build/state
    echo $$ > "$state/owner"
    sums=$state/sums
    mkdir "$sums"
}

# the kit's line, and how many processors, megabytes of memory and of disk are here
look_round() {
    kit=$(rt version)
    # shellcheck disable=SC2016
    gate_kit=$(sed -n 's/^Proved with `\([^`]*\)`.*/\1/p' "$here/README.md")
    processors=${JOBS:-$(nproc 2> /dev/null || getconf _NPROCESSORS_ONLN 2> /dev/null || echo 1)}
    memory=$(awk '/^(MemAvailable|SwapFree):/ { n += $2 } END { print int(n / 1024) }' /proc/meminfo 2> /dev/null || echo 0)
    there=$build
    until [ -d "$there" ]; do there=$(dirname "$there"); done
    disk=$(df -Pk "$there" | awk 'NR == 2 { print int($4 / 1024) }')
    # so many checks are made at a time as there are processors and memory for them
    places=$(((memory - first_need) / next_need + 1))
    [ "$places" -le "$processors" ] || places=$processors
    [ "$places" -ge 1 ] || places=1
}

# Megabytes: of memory for the largest check and for each beside it, and of disk for a build from nothing
first_need=3500
next_need=2500
disk_need=12000

# what stands already, a file for each crate
look_at_crates() {
    crates=$(below "$program")
    # shellcheck disable=SC2086
    all=$(set -- $crates && echo $#)
    for crate in $crates; do
        if stands "$crate"; then : > "$state/$crate.done"; fi
    done
    # one place is the longest chain's; where there is but one, all crates wait for it
    others=$((places - 1))
    # shellcheck disable=SC2046
    chain=$(set -- $(left) && shift 2 && echo "$*")
    [ "$others" -ge 1 ] || { others=1; chain=; }
    start=$(date +%s)
    first_left=$(least)
}

# megabytes as gigabytes
gigabytes() {
    awk -v n="$1" 'BEGIN { print n / 1000 }'
}

# says what the work needs, beside what is here
tell_needs() {
    kit_note="which the gate was passed with"
    [ "$kit" = "$gate_kit" ] || kit_note="the gate was passed with $gate_kit"
    cat << END
To prove: $program and the $((all - 1)) crates that it stands on. Of these $all there stand already: $(count_done), in $build.
  kit         $kit, $kit_note
  processors  $processors taken
  memory      $((memory / 1000)) GB free; a check takes $(gigabytes $first_need) GB at most; at a time are made: $places
  disk        $((disk / 1000)) GB free; some $(gigabytes $disk_need) GB are taken in all
  time        some $(minutes_left) minutes, if these processors have nothing else to do
END
    [ "$memory" -ge "$first_need" ] ||
        echo "There may be too little memory: a check that lacks it fails, and is told with its log."
}

# the folder of what goes with the program
share_of() {
    case $1 in
        */bin) echo "${1%/bin}/share" ;;
        *) echo "${XDG_DATA_HOME:-${HOME:?}/.local/share}" ;;
    esac
}

# puts a file into its place in one move, with these rights, and notes it
put_file() {
    mkdir -p "$(dirname "$2")"
    cp "$1" "$2.$$"
    chmod "$3" "$2.$$"
    mv -f "$2.$$" "$2"
    sha256sum "$2" >> "$build/installed.new"
}

# what goes with the program: grammars, themes, the manual page and completions
put_share() {
    share=$(share_of "$folder")
    for file in "$here"/grammars/*.sublime-syntax; do
        put_file "$file" "$share/$program/grammars/${file##*/}" 644
    done
    for file in "$here"/examples/*.json; do
        put_file "$file" "$share/$program/themes/${file##*/}" 644
    done
    put_file "$here/docs/$program.1" "$share/man/man1/$program.1" 644
    put_file "$here/completions/$program.bash" "$share/bash-completion/completions/$program" 644
    put_file "$here/completions/_$program" "$share/zsh/site-functions/_$program" 644
    put_file "$here/completions/$program.fish" "$share/fish/vendor_completions.d/$program.fish" 644
    echo "its grammars and themes are in $share/$program"
}

# The program and what goes with it, put into their folders, and where they are. What an earlier call has put elsewhere stays noted.
put() {
    mkdir -p "$folder"
    : > "$build/installed.new"
    put_file "$build/$program/crates/$program/out/$program" "$folder/$program" 755
    echo "$program, proved, is in $folder"
    [ "$program" = syncat ] || put_share
    touch "$build/installed"
    awk '!seen[substr($0, 67)]++' "$build/installed.new" "$build/installed" > "$build/installed.all"
    mv -f "$build/installed.all" "$build/installed"
    rm -f "$build/installed.new"
    case ":$PATH:" in
        *":$folder:"*) ;;
        *) echo "$folder is not on the path" ;;
    esac
}

install() {
    mkdir -p "$folder" 2> /dev/null || stop "the folder $folder cannot be made"
    [ -w "$folder" ] || stop "nothing can be written into $folder"
    tell_needs
    if [ "$(count_done)" -lt "$all" ]; then
        [ "$disk" -ge $((disk_need * (all - $(count_done)) / all)) ] ||
            stop "there is too little disk at $build; VULSANGI_BUILD names another folder"
        echo "Ctrl-C stops it, and the same command goes on. Each line is a crate that stands:"
        trap interrupted INT TERM HUP
        for crate in $crates; do
            if [ ! -e "$state/$crate.done" ]; then
                work "$crate" &
                workers="$workers $!"
            fi
        done
        wait
        [ ! -e "$state/over" ] || exit 1
    fi
    put
}

# Shows a file by a program without any proof, which is built where the text has changed.
try_it() {
    unproved=$build/unproved
    mkdir -p "$unproved"
    builder=
    wanted=$(sum_of "$program")
    if [ "$(cat "$unproved/sum" 2> /dev/null)" != "$wanted" ] || [ ! -x "$unproved/$program" ]; then
        echo "Building $program WITHOUT PROOF, in two steps: some minute on a free processor, and 2 GB of memory."
        rm -f "$unproved/sum"
        trap 'kill $builder 2> /dev/null || true; wait; echo "install.sh: stopped" >&2; exit 130' INT TERM HUP
        # without optimizing, which takes as long again
        OPTIMIZE=0 TMPDIR=$unproved sh "$here/scripts/unproved.sh" --say "$program" "$unproved/$program" &
        builder=$!
        wait "$builder" || exit 1
        builder=
        echo "$wanted" > "$unproved/sum"
    fi
    case $program in
        syncat) set -- "$here/examples/grammars" "$here/examples/dusk.json" term ;;
        *) set -- --grammars "$here/grammars" --theme "$here/examples/dusk.json" --color always ;;
    esac
    "$unproved/$program" "$@" "$here/examples/texts/orbit.rs"
    cat << END

That was examples/texts/orbit.rs, by $unproved/$program
This build is UNPROVED: it shows colours and is for nothing else. The gate proves this same text; sh install.sh proves it
here, in some $(minutes_left) minutes on these processors, and installs what it has proved.
END
}

# Takes a file away that was put into its place, by its line of what was installed, and the folders that were made for it.
take_away() {
    file=${1#*[ *][ *]}
    [ -e "$file" ] || return 0
    if ! printf '%s\n' "$1" | sha256sum --check --status 2> /dev/null; then
        echo "$file is left: it is not what was put there"
        return 0
    fi
    rm -f "$file"
    case $file in
        */vulsangi/grammars/* | */vulsangi/themes/*)
            rmdir "${file%/*}" 2> /dev/null || true
            top=${file%/*}
            rmdir "${top%/*}" 2> /dev/null || true
            ;;
        */man1/* | */completions/* | */site-functions/* | */vendor_completions.d/*) ;;
        *) echo "$file is taken away" ;;
    esac
}

# Takes away what calls of this script have made, and nothing else.
uninstall() {
    [ -d "$build" ] || stop "there is nothing at $build"
    take_state
    if [ -f "$build/installed" ]; then
        while IFS= read -r line; do take_away "$line"; done < "$build/installed"
    fi
    for lane in "$build"/*/; do
        [ ! -f "$lane/HANDLES" ] || [ ! -f "$lane/crates.txt" ] || rm -rf "${lane:?}"
    done
    rm -rf "$build/unproved" "$build/installed" "$build/installed.new" "$build/state" "$build"/*.log
    state=
    rmdir "$build" 2> /dev/null || echo "$build is left: it has other files"
    echo "what was built in $build is taken away"
}

word=install
case ${1:-} in
    --help) sed -n '2,13s/^# \{0,1\}//p' "$0"; exit 0 ;;
    --plan | --try | --uninstall) word=${1#--}; shift ;;
    -*) stop "there is no word $1; sh install.sh --help shows those there are" ;;
esac
[ $# -le 1 ] || stop "more than one folder is named"
folder=${1:-"${HOME:?}/.local/bin"}
case $folder in /*) ;; *) folder=$PWD/$folder ;; esac
if [ "$word" = uninstall ]; then
    uninstall
    exit 0
fi
command -v rt > /dev/null || stop "the command rt of the Rattle kit is not on the path; README.md says how one comes by it"
take_state
look_round
sum_texts
look_at_crates
case $word in
    plan) tell_needs ;;
    try) try_it ;;
    install) install ;;
esac
