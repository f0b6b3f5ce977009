# Streams and job files: ./repair runs a program for each thing that is wanted of a stream.

most=3600002      # of a stream: the level byte, 100,000 triangles of 36 bytes, and the byte that makes them too many
most_job=67108864 # of a job file: 100,000 triangles take a tenth of it

# The first coordinate out of the level's range, which is what 4 and 24 are given for. The program prints the number alone, so it is looked
# for in the stream, in one pass.
bad_coordinate() {
    level=$(od -An -N 1 -t u1 "$room/stream")
    od -An -v -j 1 -w36 -t d4 "$room/stream" 2>/dev/null | awk -v least=$((1 << (19 - level))) '
        {
            for (c = 0; c < 9; c++)
                if ($(c + 1) < least || $(c + 1) > 524287 - least) {
                    printf "%s of corner %s of triangle %d is %s, the range is %d to %d\n", substr("xyz", c % 3 + 1, 1),
                        substr("AAABBBCCC", c + 1, 1), NR, $(c + 1), least, 524287 - least
                    exit
                }
        }'
}

# The length of the triangles in the table of contents of a job that is not refused.
triangles_length() {
    od -An -v -w29 -N 29 -t u1 "$room/job" | awk '
        { for (at = 3; at <= 9 * $2; at += 9) if ($at == 2) print $(at + 5) + 256 * ($(at + 6) + 256 * ($(at + 7) + 256 * $(at + 8))) }'
}

# Has the stream made of a job's triangles, behind the level byte; a refusal stands in its place.
unpack_job() {
    copy_input $((most_job + 1)) "$room/job"
    [ "$(wc -c <"$room/job")" -le $most_job ] || die "$name is larger than $most_job bytes"
    run_on unpack "$room/job" "$room/stream"
    case $(od -An -N 1 -t u1 "$room/stream" | tr -d ' ') in
    [2-5]) [ "$(wc -c <"$room/stream")" -eq $((1 + $(triangles_length))) ] || die "the program's stream is cut short" ;;
    *)
        first=$(head -n 1 "$room/stream")
        case $first in
        'refused '*) refuse "$first: $(meaning "${first#refused }")" ;;
        'no triangles') refuse "$first: the job has none to repair" ;;
        *) die "the program unpack printed something else" ;;
        esac
        ;;
    esac
}

# Has the masks made: a picture of `row` rows for each of as many layers, with a header of `P4`, width and height.
make_masks() {
    run_on masking "$room/stream" "$room/masks"
    [ "$(wc -c <"$room/masks")" -eq $((row * mask)) ] || die "the program's masks are cut short"
}

# Has the job made: a table of contents of three bodies, the grid, the triangles and the quads.
make_job() {
    run_on pack "$room/stream" "$room/packed"
    [ "$(wc -c <"$room/packed")" -eq $((29 + row * row * row + 36 * triangles + 8 * quad_count)) ] || die "the program's job is cut short"
}

# Has the surface written as binary STL: two triangles a quad.
make_surface() {
    run_on surfaced "$room/stream" "$room/surface"
    [ "$(wc -c <"$room/surface")" -eq $((84 + 100 * quad_count)) ] || die "the program's surface is cut short"
}

# What follows from the level: points a side, characters of a picture, bytes of a mask.
measure() {
    row=$(((1 << level) + 1)) pixels="$(((1 << level) + 1)) $(((1 << level) + 1))"
    drawn=$((row * row * (row + 1) + row)) mask=$((3 + ${#pixels} + 1 + row * ((row + 7) / 8)))
}

# Has the pictures made, of the layers, and of the faces with one mark and with three; their numbers stand behind the first.
make_pictures() {
    run_on layers "$room/stream" "$room/printed"
    faces=$(tail -n 1 "$room/printed")
    case $faces in
    'ones '*' threes '*) [ "$(wc -c <"$room/printed")" -eq $((drawn + ${#faces} + 1)) ] || die "the program's picture is cut short" ;;
    *) die "the program's picture is cut short" ;;
    esac
    ones=${faces% threes*} ones=${ones#ones } threes=${faces##* }
    write "$room/layers" head -c "$drawn" "$room/printed"
    [ -n "$picture" ] || return 0
    run_on gaps "$room/stream" "$room/gaps"
    [ "$(wc -c <"$room/gaps")" -eq "$drawn" ] || die "the program's second picture is cut short"
}

# Makes the files that are to be printed, so that what cannot be finished is not begun.
answer() {
    run_on repair "$room/stream" "$room/listing"
    first=$(head -n 1 "$room/listing")
    case $first in
    'refused '*)
        refuse "$first: $(meaning "${first#refused }")"
        return 0
        ;;
    'level '*) ;;
    *) die "the program printed something else: $first" ;;
    esac
    # shellcheck disable=SC2046
    set -- $(head -n 2 "$room/listing")
    if [ $# != 12 ] || [ "$(wc -l <"$room/listing")" -ne $((${12} + 2)) ]; then die "the program's listing is cut short"; fi
    level=$2 triangles=$4 rims=$6 flips=$8 inside=${10} quad_count=${12} e=0
    measure
    make_pictures
    [ -z "$masks" ] || make_masks
    [ -z "$job" ] || make_job
    [ -z "$out" ] || make_surface
    write_report
}

# A stream, or the stream of a job.
repair_stream() {
    if [ "$kind" = job ]; then unpack_job; else copy_input $most "$room/stream"; fi
    [ -n "$refused" ] || answer
}
