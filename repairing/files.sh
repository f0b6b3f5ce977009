# The files that ./repair writes: beside their places first, and renamed when all are whole.

# A file that is there stays, unless told; the one that is read stays in any case.
keep_file() { # FILE
    # shellcheck disable=SC3013
    [ ! "$1" -ef "$source" ] || die "$1 is the file that is read"
    if [ -z "$force" ] && { [ -e "$1" ] || [ -L "$1" ]; }; then die "there is a file $1: --force writes over it"; fi
}

# A place that is none is told before anything is done.
check_place() { # FILE
    keep_file "$1"
    [ ! -e "$1" ] || [ -f "$1" ] || die "$1 is there and is no file that can be written over"
    [ -d "$(dirname -- "$1")" ] || die "cannot write $1: there is no folder $(dirname -- "$1")"
}

check_places() {
    [ -z "$job" ] || check_place "$job"
    [ -z "$out" ] || check_place "$out"
    [ -z "$job" ] || [ -z "$out" ] || [ "$(readlink -m -- "$job")" != "$(readlink -m -- "$out")" ] || die "one file for the surface and the job: $out"
}

# Renames a file that is whole.
put_file() { # FILE PLACE
    mv -T "${force:--n}" -- "$1" "$2" 2>"$room/said" || die "cannot write $2: $(cat "$room/said")"
    [ ! -e "$1" ] || die "there is a file $2 now: --force writes over it"
}

# A folder beside a place: in the one that a run over many files has made there, which is removed at its end whatever becomes of this run.
folder_beside() { # PLACE
    mktemp -d -- "${REPAIR_BESIDE:-$(dirname -- "$1")}/.repair.XXXXXX" 2>"$room/said"
}

# Copies a file that was made into a folder beside its place.
write_beside() { # FILE FOLDER PLACE
    cp -- "$1" "$2/whole" 2>"$room/said" || die "cannot write $3: $(cat "$room/said")"
    keep_file "$3"
}

# Writes the masks beside their places in their folder.
write_masks() {
    mkdir -p -- "$masks" 2>"$room/said" || die "cannot make the folder $masks: $(cat "$room/said")"
    beside=$(mktemp -d -- "$masks/.masks.XXXXXX" 2>"$room/said") || die "cannot write to $masks: $(cat "$room/said")"
    split -b "$mask" -d -a 2 --additional-suffix=.pbm "$room/masks" "$beside/layer_" 2>"$room/said" ||
        die "cannot write to $masks: $(cat "$room/said")"
    for layer in "$beside"/layer_*; do
        keep_file "$masks/${layer##*/}"
    done
}

# Writes what was asked for beside its place, and renames it when all is whole.
put_files() {
    [ -z "$masks" ] || write_masks
    if [ -n "$job" ]; then
        beside_job=$(folder_beside "$job") || die "cannot write $job: $(cat "$room/said")"
        write_beside "$room/packed" "$beside_job" "$job"
    fi
    if [ -n "$out" ]; then
        beside_out=$(folder_beside "$out") || die "cannot write $out: $(cat "$room/said")"
        write_beside "$room/surface" "$beside_out" "$out"
    fi
    [ -z "$job" ] || put_file "$beside_job/whole" "$job"
    [ -z "$out" ] || put_file "$beside_out/whole" "$out"
    [ -n "$masks" ] || return 0
    for layer in "$beside"/layer_*; do
        put_file "$layer" "$masks/${layer##*/}"
    done
}
