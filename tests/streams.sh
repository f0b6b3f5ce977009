# Functions for tests/program and tests/plant: streams of every kind, and a program held to what the reference prints of them. Read after
# tests/compile.sh.

streams=$work/streams

# Writes the streams to target/tests/streams, each NAME.bin with NAME.expected beside it: what the reference prints.
make_streams() {
    # shellcheck disable=SC2086
    objects "$root/tests" $reference reference_main streams triangles
    link reference "$reference reference_main"
    link make_streams "streams triangles"
    rm -rf "$streams"
    mkdir -p "$streams"
    "$work/make_streams" "$streams" || die "the streams could not be written"
    cp "$root"/models/*.bin "$streams"
    for stream in "$streams"/*.bin; do
        "$work/reference" <"$stream" >"${stream%.bin}.expected" || die "the reference failed on $stream"
    done
}

# The front of a file's first line, as far as it can be printed.
front() { head -n 1 "$1" | head -c 60 | tr -cd ' -~'; } # FILE

ran=0 differ=0
# Holds a program's output on standard input to the expected one, with status 0 and nothing on standard error; says what differs.
hold() { # NAME EXPECTED COMMAND...
    what=$1 expected=$2
    shift 2
    ran=$((ran + 1))
    status=0
    "$@" >"$work/printed" 2>"$work/said" || status=$?
    [ "$status" = 0 ] && [ ! -s "$work/said" ] && cmp -s "$work/printed" "$expected" && return 0
    echo "difference at $what: expected '$(front "$expected")' and so on, got '$(front "$work/printed")', status $status"
    differ=$((differ + 1))
    return 1
}
