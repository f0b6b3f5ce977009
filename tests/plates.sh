# Functions for tests/plate and tests/plant: STL files of every kind, and what the reference of `plate` prints of each. Read after
# tests/compile.sh and tests/streams.sh.

plates=$work/plates

# Writes the files to target/tests/plates; line N of `list` there is a run, and N.expected what the reference prints.
make_plates() {
    need python3 python3
    rm -rf "$plates"
    mkdir -p "$plates"
    PYTHONDONTWRITEBYTECODE=1 python3 "$root/tests/plate_inputs.py" "$plates" || die "tests/plate_inputs.py failed"
    # shellcheck disable=SC2086
    objects "$root/tests" $reference plate_main
    link reference_plate "$reference plate_main"
    each_plate expect_plate
}

expect_plate() { # NUMBER NAME WORD
    "$work/reference_plate" "$3" <"$plates/$2.stl" >"$plates/$1.expected" || die "the reference failed on $2.stl, $3"
}

# Calls a function for each run, until it fails.
each_plate() { # FUNCTION
    run=0
    while IFS='	' read -r plate_name plate_word <&5; do
        run=$((run + 1))
        "$1" "$run" "$plate_name" "$plate_word" || return 1
    done 5<"$plates/list"
}
