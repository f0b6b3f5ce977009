# Binary STL files: one program, plate, measures the model, places it on the grid, repairs it and prints everything; what is wanted is cut out
# of that here.

# A file that is read twice. What is no regular file is copied, no more of it than its count of triangles asks for and a byte; in a group of its
# own, which a signal ends.
find_model() {
    model=$file
    [ "$file" = - ] || [ ! -f "$file" ] || return 0
    model=$room/model
    need setsid util-linux
    # shellcheck disable=SC2016
    copying='head -c 84 >"$1" && many=$(od -An -j 80 -N 4 -t u4 --endian=little "$1" 2>/dev/null || echo 0) && head -c $((1 + 50 * many)) >>"$1"'
    busy=yes
    if [ "$file" = - ]; then
        setsid sh -c "$copying" sh "$model" 2>"$room/said" <&3 &
    else
        setsid sh -c "$copying" sh "$model" 2>"$room/said" <"$file" &
    fi
    await || die "cannot copy $name to $room: $(head -n 1 "$room/said")"
}

# The number of triangles that a file counts.
counted() { echo $(($(od -An -j 80 -N 4 -t u4 --endian=little "$model"))); }

# Why the length is wrong.
wrong_length() {
    bytes=$(wc -c <"$model")
    if [ "$bytes" -lt 84 ]; then
        echo "it has $bytes bytes, and its head alone takes 84"
    else
        echo "it counts $(counted) triangles, which take $((84 + 50 * $(counted))) bytes, and has $bytes"
    fi
}

# The first coordinate that is a NaN or infinite: the upper half of its word, without the sign, is 7f80 or more.
bad_number() {
    tail -c +85 "$model" | od -An -v -w50 -t u2 --endian=little | awk '
        {
            for (c = 0; c < 9; c++)
                if ($(8 + 2 * c) % 32768 >= 32640) {
                    printf "%s of corner %s of triangle %d\n", substr("xyz", c % 3 + 1, 1), substr("AAABBBCCC", c + 1, 1), NR
                    exit
                }
        }'
}

# The level's range at e.
range_in_units() {
    in_units 'low = 2 ^ (19 - level); print "which at e " e " is " sprintf("%.7g", low * unit) " to " sprintf("%.7g", (524287 - low) * unit) " units"'
}

# The program's word: the level, how the model is placed, e in two digits, and what is wanted.
plate_word() { # WANT
    printf '%s%s%02d%s' "$level" "$mode" $((e + 20)) "$1"
}

# So many bytes of what the program printed, behind so many.
cut_out() { # BEHIND BYTES
    tail -c "+$(($1 + 1))" "$room/plated" | head -c "$2"
}

# The listing, as for a stream: two lines, and one for each quad.
list_quads() { # BEHIND
    echo "level $level triangles $triangles"
    echo "rims $rims flips $flips inside $inside quads $quad_count"
    cut_out "$1" $((8 * quad_count)) | od -An -v -w8 -t u2 --endian=little | sed -e 's/  */ /g' -e 's/^/q/'
}

# Has the job made of the placed triangles.
case_model() {
    run_on plate "$model" "$room/packed" "$(plate_word j)"
    [ "$(head -c 10 "$room/packed" | tr -d '\0')" != 'refused 20' ] ||
        die "a job's offsets have 32 bits, which is enough for some 119,000,000 triangles, and $name has $triangles: leave --job out"
    [ "$(wc -c <"$room/packed")" -eq $((29 + row * row * row + 36 * triangles + 8 * quad_count)) ] || die "the program's job is cut short"
}

# Takes apart what the program printed: five lines, two pictures, the masks, the quads, the surface.
take_apart() { # level N triangles N e N shift N N N least N N N greatest N N N rims N flips N inside N quads N ones N threes N
    [ $# = 30 ] || die "the program plate printed something else"
    level=$2 triangles=$4 e=$6 moved="$8 $9 ${10}" least="${12} ${13} ${14}" greatest="${16} ${17} ${18}"
    rims=${20} flips=${22} inside=${24} quad_count=${26} ones=${28} threes=${30}
    measure
    at=$(head -n 5 "$room/plated" | wc -c)
    [ "$(wc -c <"$room/plated")" -eq $((at + 2 * drawn + row * mask + 84 + 108 * quad_count)) ] || die "what the program plate printed is cut short"
    if [ -n "$picture" ]; then
        write "$room/gaps" cut_out "$at" "$drawn"
        write "$room/layers" cut_out $((at + drawn)) "$drawn"
    fi
    at=$((at + 2 * drawn))
    [ -z "$masks" ] || write "$room/masks" cut_out "$at" $((row * mask))
    at=$((at + row * mask))
    [ -z "$quads" ] || write "$room/listing" list_quads "$at"
    [ -z "$out" ] || write "$room/surface" cut_out $((at + 8 * quad_count)) $((84 + 100 * quad_count))
}

# An STL file: fitted to the grid unless e is given, kept where it is when that is asked for.
repair_model() {
    level=${level:-5} mode=f
    [ -z "$e" ] || mode=c
    [ -z "$no_fit" ] || mode=k
    e=${e:-0}
    find_model
    run_on plate "$model" "$room/plated" "$(plate_word r)"
    first=$(head -n 1 "$room/plated" | tr -d '\0')
    case $first in
    'level '*) ;;
    'refused '* | 'no triangles' | 'too large')
        refuse "$first: $(model_meaning "$first")"
        return 0
        ;;
    *) die "the program plate printed something else: $first" ;;
    esac
    # shellcheck disable=SC2046
    take_apart $(head -n 5 "$room/plated" | tr -d '\0')
    [ -z "$job" ] || case_model
    write_report
}
