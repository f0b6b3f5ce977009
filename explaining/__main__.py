"""The command: options, the order of the steps, the exit status."""
import argparse
import os
import re
import signal
import sys

import account
import drawing
import page
import writing
from faults import Refusal, Said, Trouble
from lattice import LETTERS
from proved import compare, hold_refusal
from reading import MOST_BYTES, read_job, read_stl, read_stream
from repairing import repair_case

ROOT = os.path.dirname(os.path.dirname(os.path.abspath(__file__)))
SAMPLE = os.path.join(ROOT, "models", "lampshade.bin")
MOST_FILE = 1 << 26  # of an STL or job file; 100,000 triangles take a tenth of it

USAGE = """usage: ./explain [--all] [--triangle K] [--rim K] [--point i,j,k] [--edge a,i,j,k] [--face a,i,j,k] [FILE]
       ./explain --page OUT.html [--force] [FILE]
       ./explain --svg OUT.svg (--rim K | --layer a,m) [--force] [FILE]
       ./explain --help | --version

Explains what ./repair does with FILE, in the words of the rules, so that it can be followed on paper. Without FILE it explains the sample
models/lampshade.bin; - is standard input.

  FILE           a stream (docs/FORMATS.md); a binary STL file when its name ends in .stl, a job file when it ends in .job
  --kind KIND    stream, stl or job, whatever its name is
  --e N          for an STL file: each coordinate is taken times 2^N; N is -20 to 20 and has to be given
  --level L      for an STL file: the level, 5 when none is given

Without one of these the account is short, a line a rim:
  --all          the whole account: each triangle's marks, each rim with its cuts, pairs and paths, layers of points, quads
  --triangle K   the edges that triangle K meets; with --edge, the axis that separates the two or that none does
  --rim K        the rim's faces and box, each cut: axis, plane, faces listed, pairs, paths and flips
  --point i,j,k  the point's sign, with a route and the marks met on it
  --edge a,i,j,k the edge's marks, flips and quad; a is x, y or z
  --face a,i,j,k the face's marks, as they came and afterwards

  --page OUT     writes a page for any browser instead, one file that needs no network
  --svg OUT      writes the picture of a rim, or of the layer m along axis a
  --force        writes over a file that is there

It is a reader's aid and not proved. So each run holds what it arrived at to what the proved program gives for the same input, and ends with
an error where they differ. The first run proves and builds the program, as ./repair does. 100,000 small triangles
take a few seconds, large ones more.
Exit status: 0 explained, 1 refused, 2 for anything else that went wrong; one line on standard error says which.
"""


class Ended(BaseException):
    """A signal: what is half written is taken away first."""


class Options(argparse.ArgumentParser):
    def error(self, message):
        raise Trouble(f"{message}: ./explain --help tells the options")


def coordinates(words, many):
    numbers = words.split(",")
    if len(numbers) != many or not all(re.fullmatch(r"\d{1,9}", number) for number in numbers):
        raise argparse.ArgumentTypeError(f"'{words}' is not {many} numbers with commas between")
    return tuple(map(int, numbers))


def a_point(words):
    return coordinates(words, 3)


def with_axis(words, many):
    axis, _, rest = words.partition(",")
    if axis not in tuple(LETTERS):
        raise argparse.ArgumentTypeError(f"'{words}' does not begin with x, y or z and a comma")
    numbers = coordinates(rest, many)
    return LETTERS.index(axis), numbers if many > 1 else numbers[0]


def an_edge(words):
    return with_axis(words, 3)


def a_layer(words):
    return with_axis(words, 1)


def options():
    parser = Options(prog="explain", add_help=False, allow_abbrev=False)
    parser.add_argument("file", nargs="?", default=SAMPLE)
    parser.add_argument("--kind", choices=("stream", "stl", "job"))
    for word in ("--e", "--level"):
        parser.add_argument(word, type=int)
    for word in ("--all", "--force"):
        parser.add_argument(word, action="store_true")
    for word in ("--triangle", "--rim"):
        parser.add_argument(word, type=int)
    parser.add_argument("--point", type=a_point)
    for word in ("--edge", "--face"):
        parser.add_argument(word, type=an_edge)
    parser.add_argument("--layer", type=a_layer)
    for word in ("--page", "--svg"):
        parser.add_argument(word)
    return parser


# ---- what is read

def kind_of(asked):
    if asked.kind:
        return asked.kind
    ending = os.path.splitext(asked.file)[1].lower()
    return {".stl": "stl", ".job": "job"}.get(ending, "stream")


def bytes_of(path, most):
    """At most so many bytes of a file."""
    try:
        if path == "-":
            if sys.stdin is None:
                raise Trouble("standard input is closed")
            return sys.stdin.buffer.read(most)
        with open(path, "rb") as file:
            return file.read(most)
    except OSError as fault:
        raise Trouble(f"cannot read {path}: {fault.strerror}") from None


def read(asked):
    kind = kind_of(asked)
    if kind != "stl" and (asked.e is not None or asked.level is not None):
        raise Trouble("--e and --level are for an STL file")
    if kind == "stl" and asked.e is None:
        raise Trouble("an STL file needs --e N: each coordinate is taken times 2^N")
    if kind == "stream":
        return read_stream(bytes_of(asked.file, MOST_BYTES))
    data = bytes_of(asked.file, MOST_FILE + 1)
    if len(data) > MOST_FILE:
        raise Trouble(f"{asked.file} is larger than {MOST_FILE} bytes")
    return read_job(data) if kind == "job" else read_stl(data, asked.e, 5 if asked.level is None else asked.level)


# ---- what is asked for

def check_places(asked, case):
    """Points, edges, faces and triangles that are asked for exist."""
    level = case.level
    if asked.point and not level.is_point(asked.point):
        raise Trouble(f"there is no such point: coordinates run from 0 to {level.n}")
    if asked.edge and not level.is_edge(asked.edge):
        raise Trouble("there is no such edge on the grid")
    if asked.face and not all(1 <= c < level.n if a == asked.face[0] else 0 <= c < level.n for a, c in enumerate(asked.face[1])):
        raise Trouble("there is no such face between two cells")
    if asked.layer and asked.layer[1] > level.n:
        raise Trouble(f"there is no such layer: they run from 0 to {level.n}")
    if asked.triangle is not None and not 1 <= asked.triangle <= len(case.triangles or []):
        raise Trouble(f"there is no triangle {asked.triangle}: they run from 1 to {len(case.triangles or [])}")


def find_rim(asked, repair):
    if asked.rim is None:
        return None
    if not 1 <= asked.rim <= len(repair.rims):
        raise Trouble(f"there is no rim {asked.rim}: they run from 1 to {len(repair.rims)}")
    return repair.rims[asked.rim - 1]


def accounts(asked, case, repair):
    """The lines asked for; the short account when nothing is."""
    rim = find_rim(asked, repair)
    found = []
    if asked.all:
        found.append(account.whole(case, repair))
    if asked.triangle is not None:
        found.append(account.triangle_and_edge(case, asked.triangle, asked.edge) if asked.edge else account.triangle(case, asked.triangle))
    if rim:
        found.append(account.rim_account(repair, rim))
    if asked.point:
        found.append(account.point(repair, asked.point))
    if asked.edge and asked.triangle is None:
        found.append(account.edge(case, repair, asked.edge))
    if asked.face:
        found.append(account.face(repair, asked.face))
    return [line for lines in found or [account.short(repair)] for line in lines]


def picture(asked, repair):
    rim = find_rim(asked, repair)
    if rim:
        return drawing.rim_picture(repair, rim)
    if asked.layer:
        return drawing.layer_picture(repair, *asked.layer)
    raise Trouble("--svg needs --rim K or --layer a,m")


def explain(asked):
    """Everything is worked out and compared before anything is written."""
    for path in filter(None, (asked.page, asked.svg)):
        writing.check(path, None if asked.file == "-" else asked.file, asked.force)
    title = "standard input" if asked.file == "-" else os.path.basename(asked.file)
    case = read(asked)
    if case.triangles is None and case.marks is None:
        raise Trouble(f"{title} holds neither triangles nor a grid: there is nothing to explain")
    check_places(asked, case)
    repair = repair_case(case)
    compared = compare(case, repair) + account.bodies(case, repair)
    lines = account.heading(title, case)
    if asked.page:
        writing.write(asked.page, page.make_page(title, case, repair, compared))
        lines.append(f"Page: {asked.page}")
    if asked.svg:
        writing.write(asked.svg, picture(asked, repair))
        lines.append(f"Picture: {asked.svg}")
    return lines + (accounts(asked, case, repair) if not (asked.page or asked.svg) else []) + compared


def version():
    with open(os.path.join(ROOT, "include", "omphirun.h")) as file:
        return "explain (Omphirun) " + ".".join(re.findall(r"^#define OMPHIRUN_(?:MAJOR|MINOR|PATCH) (\d+)", file.read(), re.M))


def run(words):
    """The text to print; whatever goes wrong is raised."""
    if words in (["--help"], ["-h"]):
        return USAGE
    if words == ["--version"]:
        return version() + "\n"
    asked = options().parse_args(words)
    try:
        return "\n".join(explain(asked)) + "\n"
    except Refusal as refusal:
        hold_refusal(refusal)
        raise


def put(text):
    """A reader that stops early is no failure."""
    try:
        if sys.stdout is None:
            raise Trouble("standard output is closed")
        sys.stdout.reconfigure(errors="backslashreplace")  # a file's name may hold anything
        sys.stdout.write(text)
        sys.stdout.flush()
    except BrokenPipeError:
        os.dup2(os.open(os.devnull, os.O_WRONLY), 1)
    except OSError as fault:
        os.dup2(os.open(os.devnull, os.O_WRONLY), 1)
        raise Trouble(f"cannot write to standard output: {fault.strerror}") from None


def ended_by(number, _):
    raise Ended(number)


def main(words):
    for number in (signal.SIGINT, signal.SIGTERM, signal.SIGHUP):
        signal.signal(number, ended_by)
    try:
        put(run(words))
        return 0
    except Refusal as refusal:
        print(f"explain: {refusal}", file=sys.stderr)
        return 1
    except Said:
        return 2
    except Trouble as trouble:
        print(f"explain: {' '.join(str(trouble).split())}", file=sys.stderr)
        return 2
    except Exception as fault:
        print(f"explain: a fault of ./explain itself: {type(fault).__name__}: {' '.join(str(fault).split())}", file=sys.stderr)
        return 2
    except Ended as ended:
        signal.signal(ended.args[0], signal.SIG_DFL)
        os.kill(os.getpid(), ended.args[0])
        return 2


if __name__ == "__main__":
    sys.exit(main(sys.argv[1:]))
