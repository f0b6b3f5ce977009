# Functions for bench/run and bench/owners, read after tests/build.sh and tests/compile.sh: what is timed, made by rt.

# A program to time: the command is left in `timed`.
timed_program() { # NAME
    build_program "$1"
    timed=$root/target/bin/$1
}

# One function of an earlier library under another name.
earlier() { # FILE FUNCTION NAME
    need objcopy binutils
    [ -f "$1" ] || die "there is no file $1"
    objcopy --redefine-sym "$2=$3" --keep-global-symbol="$3" "$1" "$work/$3.a"
}
