# Functions for the scripts that compile C: which files make up the reference and the harness, the compilers, objects and programs in
# target/tests. Read after tests/build.sh.

flags='-O2 -std=gnu11 -Wall -Wextra'

# The names of C files of tests/, without .c.
names() { # PATTERN
    for part in "$root"/tests/$1; do basename "$part" .c; done
}

reference=$(names 'reference*.c' | grep -v reference_main)
inputs="inputs triangles grids tables turning $(names 'call_*.c')"
harness="compare calls sides shrink print examples examples_totals $inputs $reference"

# The C compiler.
find_compiler() {
    find_machine
    mkdir -p "$work"
    need gcc gcc
    need_file /usr/include/stdio.h libc6-dev
    cc=gcc
}

# The C++ compiler beside it.
find_cxx() {
    need g++ g++
    cxx=g++
}

# Compiles C files of a folder, named without .c, into objects of target/tests.
objects() { # FOLDER NAME...
    from=$1
    shift
    for part; do
        # shellcheck disable=SC2086
        $cc $flags -c -o "$work/$part.o" "$from/$part.c" || die "$from/$part.c does not compile"
    done
}

# Links objects of target/tests, named without .o, and further files into a program there.
link() { # PROGRAM "NAME..." FILE...
    program=$1 parts=
    for part in $2; do parts="$parts $part.o"; done
    shift 2
    # shellcheck disable=SC2086
    (cd "$work" && $cc $flags -o "$program" $parts "$@") || die "$program does not link"
}

# Links the library's archive as a shared library that exports the calls and nothing else.
link_shared() { # SONAME FILE
    make_room
    echo '{ global: omphirun_*; local: *; };' >"$room/exports"
    $cc -shared -Wl,-soname,"$1" -Wl,--version-script,"$room/exports" -Wl,-z,defs -Wl,-z,noexecstack -o "$2" \
        -Wl,--whole-archive "$library" -Wl,--no-whole-archive >"$room/said" 2>&1 || die "cannot link $1: $(head -n 1 "$room/said")"
}
