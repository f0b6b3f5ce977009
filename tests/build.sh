# Functions for ./repair, ./test and the scripts of tests/ and bench/: the kit, what rt makes, and the end of a script. A script sets `me` (its
# name) and `root` (the repository's folder) before it reads this file. What is made goes to target/; what is temporary goes to a folder that
# is removed at the end, after a signal too. No file of a crate and no link may come to lie in target/: `rt ci` refuses both there.

work=$root/target/tests${TESTS_LANE:+/lane_$TESTS_LANE} # tests/lanes gives each lane a number

say() { printf '%s: %s\n' "$me" "$*" >&2; }
die() {
    say "$@"
    exit 2
}

# The version, which stands in the header alone.
library_version() {
    awk '/^#define OMPHIRUN_(MAJOR|MINOR|PATCH) / { v = v dot $3; dot = "." } END { print v }' "$root/include/omphirun.h"
}

# ---- what has to be there; nothing is installed

missing() { die "$1 is missing: install it (Debian's package $2)"; }
need() { command -v "$1" >/dev/null 2>&1 || missing "$1" "$2"; } # COMMAND PACKAGE
need_file() { [ -e "$1" ] || missing "$1" "$2"; }                 # FILE PACKAGE

# The kit's folder.
find_kit() {
    rt=$(command -v rt) || die "rt is not on the path: install the Rattle kit"
    find_machine
    kit=$(dirname "$(dirname "$(readlink -f "$rt")")")
}

# The kit runs on x86-64 and compiles for it alone.
find_machine() {
    machine=$(uname -m)
    [ "$machine" = x86_64 ] || die "the Rattle kit and what it builds are for x86-64, and this machine is $machine"
}

# ---- the end, and signals

room='' rt_room='' beside='' beside_job='' beside_out='' busy=''

# A folder for what is temporary.
make_room() {
    [ -n "$room" ] || room=$(mktemp -d 2>/dev/null) || die "cannot make a temporary folder in ${TMPDIR:-/tmp}"
}

finish() {
    rm -rf ${room:+"$room"} ${rt_room:+"$rt_room"} ${beside:+"$beside"} ${beside_job:+"$beside_job"} ${beside_out:+"$beside_out"}
}

# Ends the command that is awaited, with its group where it has one, and waits until the group is gone, two seconds at most.
end_awaited() {
    kill -s TERM -- "-$!" 2>/dev/null || kill -s TERM "$!" 2>/dev/null || return 0
    wait "$!" 2>/dev/null || :
    for _ in 1 2 3 4 5 6 7 8 9 10 11 12 13 14 15 16 17 18 19 20; do
        kill -s 0 -- "-$!" 2>/dev/null || return 0
        sleep 0.1
    done
}

# Ends what runs, then the script itself by the signal.
stop() { # SIGNAL
    trap - EXIT
    [ -z "$busy" ] || end_awaited
    finish
    trap - "$1"
    kill -s "$1" $$
}

trap finish EXIT
trap 'stop INT' INT
trap 'stop TERM' TERM
trap 'stop HUP' HUP

# Waits for the command last started in the background, `busy` being set before it was: a shell takes a signal only when the command it
# runs has ended, but leaves wait at once.
await() {
    ended=0
    wait "$!" || ended=$?
    busy=
    return "$ended"
}

# ---- what rt makes

# Takes the lock on the repository's builds, which every command started from here holds too; the end of all of them gives it back.
lock() {
    need flock util-linux
    exec 9<"$root/crates.txt"
    flock -n 9 && return 0
    say "another run is building here: waiting for it"
    busy=yes
    flock 9 &
    await
}

unlock() { exec 9<&-; }

# Runs rt in a folder of the repository with the lock held, in a group of its own that a signal ends (rt's provers end with it), and with a
# temporary folder of its own, open to the user nobody, as whom rt run by root runs programs. Its lines go through SHOW, a function. How many
# provers there are at a time rt finds by the processors and the memory. RT_BACKEND would choose another compiler than the one that ships.
run_rt() { # SHOW FOLDER WORD...
    need setsid util-linux
    make_room
    [ -n "$rt_room" ] || rt_room=$(mktemp -d 2>/dev/null) || die "cannot make a temporary folder in ${TMPDIR:-/tmp}"
    chmod 711 "$rt_room"
    rm -f "$room/lines"
    mkfifo "$room/lines"
    busy=yes
    "$1" <"$room/lines" &
    shown=$!
    folder=$2
    shift 2
    (cd "$folder" && TMPDIR=$rt_room RT_BACKEND='' exec setsid rt "$@") </dev/null >"$room/lines" 2>&1 &
    status=0
    await || status=$?
    wait "$shown" || :
    return "$status"
}

# Keeps rt's lines in a file, and says which crate is proved: rattle ends what it says of a crate with a line that names it and a verdict.
progress() { tee "$root/target/tests/rt.log" | sed -u -n "/^crate [a-z0-9_]*: /h; /^logic=proved /{x; s|^crate \([a-z0-9_]*\): .*|$me: \1 proved|p; }" >&2; }

# Whether a file that rt made is missing, or older than the kit or than what crates are made of. What rt keeps in a crate's out/ is passed over, and
# so is the crate's own folder, whose time changes with out/.
stale() { # FILE
    [ -f "$1" ] || return 0
    newer=$(find "$root/crates.txt" "$kit/KIT-ID" -newercm "$1" -print -quit 2>/dev/null &&
        find "$root/crates" -mindepth 2 -name out -prune -o -newercm "$1" -print -quit 2>/dev/null) || return 0
    [ -n "$newer" ]
}

# Puts a copy of what rt has made into its place below target/: `rt ci` takes a crate's out/ away and makes it anew. The copy gets the time at which
# rt began, so that what changed meanwhile is newer.
keep_made() { # FILE PLACE
    mkdir -p "${2%/*}" && cp -- "$1" "$2.new" && touch -r "$room/began" "$2.new" && mv -f -- "$2.new" "$2"
}

# Has rt make a crate's program or library anew where its copy is stale.
make_by_rt() { # PLACE CRATE WORD
    made=$1
    stale "$made" || return 0
    mkdir -p "$root/target/tests" 2>/dev/null || die "cannot write to $root/target"
    lock
    if stale "$made"; then
        say "proving and building by rt $3 in crates/$2, which takes long the first time"
        make_room
        touch "$room/began"
        run_rt progress "$root/crates/$2" "$3" && keep_made "$root/crates/$2/out/${made##*/}" "$made" ||
            die "rt $3 in crates/$2 failed: see target/tests/rt.log"
    fi
    unlock
}

# A proved program of target/bin. rt runs it once when it has built it, on no input.
build_program() { # NAME
    find_kit
    make_by_rt "$root/target/bin/$1" "$1" run
}

# The file to link as the library: the one given, or the stage's archive.
find_library() { # FILE or nothing
    if [ -n "${1:-}" ]; then
        library=$(readlink -f "$1")
        return 0
    fi
    library=$root/target/staticlib/libstage.a
    find_kit
    make_by_rt "$library" stage lib
}

# ---- what a run of `rt ci` leaves

# Takes the programs that `rt ci` has just proved and built, so that nothing proves them once more; with the lock still held, and $room/began
# from before it began.
keep_programs() {
    for main in "$root"/crates/*/src/main.rt; do
        folder=${main%/src/main.rt}
        name=${folder##*/}
        keep_made "$folder/out/$name" "$root/target/bin/$name" || die "rt ci left no program $name"
    done
}

# Makes the library's archive over the crates that `rt ci` has just proved. It makes no archive itself, and `rt lib` takes nothing of what it
# leaves but would prove each crate below the stage anew. So the kit's compiler is called as rt calls it: it proves the stage once more, and
# makes nothing unless it is proved. What it leaves out, rt does: where crates have work of runs before `rt ci` (which rt puts back in the place
# of the libraries that it proved), and where this fails.
keep_library() {
    set -- "$root"/crates/*/out/incremental "$root"/crates/*/out/rlib/stamp
    for one; do [ ! -e "$one" ] || return 0; done
    below=$(sed -n 's/^stage  *staticlib *://p' "$root/crates.txt")
    set -- --extern "std=$kit/rlibs/std.rlib" -L "dependency=$kit/rlibs"
    for one in "$root"/crates/*/out/rlib; do set -- "$@" -L "dependency=$one"; done
    for one in $below; do
        if [ -d "$root/crates/$one" ]; then one=$one=$root/crates/$one/out/rlib/$one.rlib; else one=$one=$kit/rlibs/$one.rlib; fi
        set -- "$@" --extern "$one"
    done
    busy=yes
    (cd "$root/crates/stage" && exec setsid "$kit/bin/rattle" build --crate-name stage src/lib.rt --crate-type staticlib --jobs 2 "$@" \
        --antt-project "$kit/rattle/logic/antt-project.json" --logic-built "$kit/logic_built" --toolchain "$kit/toolchain" --backend llvm \
        -o "$room/libstage.a") </dev/null >"$room/said" 2>&1 &
    await && keep_made "$room/libstage.a" "$root/target/staticlib/libstage.a" || say "the library is left to rt lib: $(grep -m 1 error "$room/said")"
}
