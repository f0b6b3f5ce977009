# Many files: each FILE is repaired by a run of ./repair of its own, which xargs starts, so many at a time.

# The place of a FILE's surface: its name, with the ending .stl.
place_of() { # FILE
    base=$(basename -- "$1")
    case $base in *?.[sS][tT][lL] | *?.[jJ][oO][bB] | *?.[bB][iI][nN]) base=${base%.*} ;; esac
    echo "$out_dir/$base.stl"
}

# What stands in the way of a run is told before it begins: a surface that would be the file that is read, or that of two FILEs.
check_outs() { # FILE...
    for file; do
        out=$(place_of "$file")
        # shellcheck disable=SC3013
        [ ! "$out" -ef "$file" ] || die "$out is a file that is read: take another folder"
        printf '%s\0' "$out" >>"$room/outs"
    done
    twice=$(sort -z "$room/outs" | uniq -dz | tr '\0' '\n' | head -n 1)
    [ -z "$twice" ] || die "two FILEs would be written to $twice"
}

# A folder beside the surfaces, for what is not whole yet. One that a killed run of this machine has left, which nobody holds any more, goes.
make_beside() {
    need flock util-linux
    mkdir -p -- "$out_dir" 2>"$room/said" || die "cannot make the folder $out_dir: $(cat "$room/said")"
    find "$out_dir" -maxdepth 1 -type d -name ".repair.$(uname -n).*" -mmin +1 -exec flock -n {} rm -rf {} \; 2>/dev/null || :
    beside=$(mktemp -d -- "$out_dir/.repair.$(uname -n).XXXXXX" 2>"$room/said") || die "cannot write to $out_dir: $(cat "$room/said")"
    exec 8<"$beside"
    flock -n 8 2>/dev/null || : # where a file system has no locks nothing is removed either
}

# Prints a line.
say_line() { # WORDS
    write "$room/report" echo "$1"
    print "$room/report"
}

# How many runs ended with a status.
ended_with() { # STATUS
    grep -cx "$1" "$room/tally" || :
}

many() { # FILE...
    need xargs findutils
    need setsid util-linux
    { true 4>&1; } 2>/dev/null || die "standard output is closed"
    make_room
    check_outs "$@"
    make_beside
    given=$kind passed=0 built=
    : >"$room/list"
    : >"$room/tally"
    for file; do
        kind=$given
        kind_of "$file"
        check_kind
        out=$(place_of "$file")
        if [ -z "$force" ] && { [ -e "$out" ] || [ -L "$out" ]; }; then
            say_line "$(basename -- "$file"): passed over, $out is there"
            passed=$((passed + 1))
        else
            case $built in *"$kind"*) ;; *) build_programs ;; esac
            built="$built $kind"
            printf '%s\0' -o "$out" -- "$file" >>"$room/list"
        fi
    done
    kind=$given
    busy=yes
    # a run that is killed does not stop the others: its status is counted by the shell that starts it
    # shellcheck disable=SC2016
    TMPDIR=$room REPAIR_BESIDE=$beside setsid xargs -0 -r -n 4 -P "${jobs:-1}" -a "$room/list" \
        sh -c 'tally=$1; shift; status=0; "$@" || status=$?; echo "$status" >>"$tally"' sh "$room/tally" "$root/repair" --brief \
        ${force:+--force} ${kind:+--kind "$kind"} ${level:+--level "$level"} ${e:+--e "$e"} ${no_fit:+--no-fit} &
    await || die "xargs failed"
    repaired=$(ended_with 0) refused=$(ended_with 1)
    failed=$(($# - passed - repaired - refused))
    [ $# = 1 ] || say_line "$repaired repaired, $refused refused, $passed passed over, $failed failed"
    [ "$failed" = 0 ] || exit 2
    told=yes
    [ "$refused" = 0 ] || exit 1
}
