# The options of ./repair.

help() {
    cat <<'END'
usage: ./repair [options] [--] [FILE]
       ./repair [options] --out-dir DIR [--jobs N] [--] FILE...
       ./repair --help | --version

Repairs the triangles in FILE, or on standard input when FILE is -, and says what was done. FILE is a binary STL file when
its name ends in .stl, a job file when it ends in .job, else a stream. Without FILE it repairs what is on standard input when
a kind is named (--stl, --kind), else the sample models/lampshade.bin, a lampshade that lacks a triangle of its outer wall.

  -o OUT         writes the repaired surface into the file OUT as binary STL, in the model's own place and units; a stream's
                 and a job's are their coordinates
  --quads        prints the listing as well: level, counts, and a line `q` with four cell numbers for each quad
  --picture      prints the layers of points as well, # inside and . outside: a row for each y, a block for each z from below;
                 and behind them the same layers once more, before the repair: o at a point where a face of a grid cell has
                 one marked edge, as where faces of the model are missing, x where one has three, as where extra walls meet,
                 * where there are both, - elsewhere. A face stands at its lowest corner
  --masks DIR    writes a mask of each layer for a resin screen, layer_00.pbm and so on from below, into the folder DIR, which
                 is made if it is missing: binary PBM, a column for each x and a row for each y, 1 inside
  --job OUT      writes the case into the file OUT, to be sent to another desk: the triangles as they were read, or as they
                 stand on the grid, the repaired grid with its signs, and the quads. Named in .job, it is repaired again by
                 `./repair OUT`, and ./explain reads it too
  --brief        prints one line in place of the report
  --force        writes over files that are there, but for the one that is read; without it none is written over
  --kind KIND    stl, job or stream, whatever FILE's name is; --stl is --kind stl

For an STL file:

  --level N      the grid has 2^N cells a side, N from 2 to 5; 5 when not given
  --e N          the model's coordinates are multiplied by 2^N, N from -20 to 20, and rounded to whole numbers of the grid; when
                 not given N is the largest with which the model fits
  --no-fit       the model is not moved to the middle of the grid: the caller has placed it; with --e, else e is 0

For many files:

  --out-dir DIR  writes the surface of each FILE into the folder DIR, under its name with the ending .stl, and prints a line for
                 each. Goes on after a FILE that is refused; one whose surface is there already is passed over, unless --force
                 is given, so that a run that was ended can be taken up again
  --jobs N       repairs N files at a time; one when not given

A stream is one level byte, 2 to 5, then nine little-endian 32-bit numbers a triangle; a job file has a table of contents
before its bodies (docs/FORMATS.md). No more of a stream is read than 100,000 triangles and a byte, and no job file of more
than 64 MB; an STL file may be larger. The first run proves and builds the programs, which takes long and is said; later
runs take a moment. Exit status: 0 repaired, 1 refused, 2 for anything else that went wrong; one line on standard error says
why. Of many files 1 says that some were refused, 2 that some failed.
END
}

quads='' picture='' masks='' job='' out='' out_dir='' jobs='' force='' brief='' kind='' level='' e='' no_fit=''

# A word that names a file or a folder, and is no option; each is given once.
place() { # OPTION WHAT OLD WORD
    [ -z "$3" ] || die "$1 is given twice: $3, and $4"
    case $4 in '' | -*) die "$1 needs a $2, and not '$4'" ;; esac
}

# The word behind an option.
take() { # OPTION WORD
    case $1 in
    --kind)
        case $2 in stream | job | stl) kind=$2 ;; *) die "--kind needs stl, job or stream, and not '$2'" ;; esac
        ;;
    --level)
        case $2 in [2-5]) level=$2 ;; *) die "--level needs 2, 3, 4 or 5, and not '$2'" ;; esac
        ;;
    --e)
        case $2 in [0-9] | 1[0-9] | 20 | -[0-9] | -1[0-9] | -20) e=$2 ;; *) die "--e needs a whole number from -20 to 20, and not '$2'" ;; esac
        ;;
    --jobs)
        case $2 in [1-9] | [1-9][0-9] | [1-9][0-9][0-9]) jobs=$2 ;; *) die "--jobs needs a number from 1 to 999, and not '$2'" ;; esac
        ;;
    --masks) place "$1" folder "$masks" "$2" && masks=$2 ;;
    --job) place "$1" file "$job" "$2" && job=$2 ;;
    -o) place "$1" file "$out" "$2" && out=$2 ;;
    --out-dir) place "$1" folder "$out_dir" "$2" && out_dir=$2 ;;
    esac
}

# Reads a word of the command; answers 1 for one that is no option, but a FILE.
wanted='' options=yes
read_word() { # WORD
    if [ -n "$wanted" ]; then
        take "$wanted" "$1"
        wanted=
        return 0
    fi
    case $options$1 in
    yes--) options= ;;
    yes--quads) quads=yes ;;
    yes--picture) picture=yes ;;
    yes--brief) brief=yes ;;
    yes--force) force=-f ;;
    yes--no-fit) no_fit=yes ;;
    yes--stl) kind=stl ;;
    yes--masks | yes--job | yes--kind | yes--level | yes--e | yes--jobs | yes--out-dir | yes-o) wanted=$1 ;;
    yes--help | yes-h)
        help
        exit 0
        ;;
    yes--version)
        echo "repair (Omphirun) $(library_version)"
        exit 0
        ;;
    yes-?*) die "unknown option $1: ./repair --help tells the options" ;;
    *) return 1 ;;
    esac
}

# Which options go together.
check_options() { # FILE...
    [ -z "$wanted" ] || die "$wanted needs a word behind it: ./repair --help tells the options"
    [ -z "$force" ] || [ -n "$masks$job$out$out_dir" ] || die "--force goes with -o, --masks, --job and --out-dir: ./repair --help tells the options"
    if [ -z "$out_dir" ]; then
        [ -z "$jobs" ] || die "--jobs goes with --out-dir: ./repair --help tells the options"
        [ $# -le 1 ] || die "several FILEs go with --out-dir: $1, and $2"
        return 0
    fi
    [ $# -gt 0 ] || die "--out-dir needs FILEs: ./repair --help tells the options"
    [ -z "$out$masks$job$quads$picture" ] || die "--out-dir does not go with -o, --masks, --job, --quads and --picture, which are for one FILE"
    for file; do
        [ "$file" != - ] || die "--out-dir needs FILEs that have names, and not standard input"
    done
}

# What a FILE is: as the option says, or as its name does.
kind_of() { # FILE
    [ -z "$kind" ] || return 0
    case $1 in
    *.[jJ][oO][bB]) kind=job ;;
    *.[sS][tT][lL]) kind=stl ;;
    *) kind=stream ;;
    esac
}

# A stream and a job have a level and a place of their own.
check_kind() {
    [ "$kind" = stl ] || [ -z "$level$e$no_fit" ] || die "--level, --e and --no-fit are for STL files, and $file is a $kind"
}
