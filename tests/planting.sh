# Functions for tests/plant: a copy of the reference with a fault in it. Read after tests/compile.sh.

# Makes a copy of the C files of tests/ in target/tests/plant/NAME.
copy() { # NAME
    copied=$work/plant/$1
    rm -rf "$copied"
    mkdir -p "$copied"
    cp "$root"/tests/*.c "$root"/tests/*.h "$copied"
}

# Applies an edit file to the copy: each `old:` must stand exactly once in its `file:`, and `new:` takes its place.
apply() { # EDIT
    while IFS= read -r line; do
        case $line in
        'file: '*) file=$copied/${line#file: } ;;
        'old: '*) old=${line#old: } ;;
        'new: '*)
            OLD=$old NEW=${line#new: } awk '
                at = index($0, ENVIRON["OLD"]) {
                    found++
                    $0 = substr($0, 1, at - 1) ENVIRON["NEW"] substr($0, at + length(ENVIRON["OLD"]))
                }
                { print }
                END { exit found != 1 }' "$file" >"$file.new" || die "$1: its old text does not stand exactly once in ${file##*/}"
            mv "$file.new" "$file"
            ;;
        esac
    done <"$1"
}

# Compiles C files of the copy, named without .c, to objects beside them; sets `planted` to the objects.
compile_copy() { # NAME...
    planted=
    for part; do
        # shellcheck disable=SC2086
        $cc $flags -w -c -o "$copied/$part.o" "$copied/$part.c" || die "${copied##*/}: the copy does not compile"
        planted="$planted ${copied#"$work"/}/$part.o"
    done
}

# The files that second.c takes up, each compiled by itself under second.c's names, so that a fault compiles its own file alone.
seconds=$(sed -n 's/^#include "\(reference.*\)\.c"$/\1/p' "$root/tests/second.c")
compile_seconds() {
    mkdir -p "$work/second"
    grep '^#define' "$root/tests/second.c" >"$work/second/names.h"
    for part in $seconds; do
        # shellcheck disable=SC2086
        $cc $flags -w -include "$work/second/names.h" -c -o "$work/second/$part.o" "$root/tests/$part.c" ||
            die "$part.c does not compile under second.c's names"
    done
}

# Compiles the copy of each of them that an edit names, all of them where it names a header; sets `planted` to the objects of all.
compile_second() { # EDIT or nothing
    planted=
    edited=$([ -z "${1:-}" ] || sed -n 's/^file: //p' "$1")
    for part in $seconds; do
        object=second/$part.o
        case " $(echo $edited) " in
        *" $part.c "* | *'.h '*)
            # shellcheck disable=SC2086
            $cc $flags -w -include "$work/second/names.h" -c -o "$copied/$part.o" "$copied/$part.c" || die "${copied##*/}: the copy does not compile"
            object=${copied#"$work"/}/$part.o
            ;;
        esac
        planted="$planted $object"
    done
}
