#!/usr/bin/env python3
"""Times a list of triangles through mark_all: from C and from Python, beside plain C, beside mark for each triangle, and beside the program.

usage: bench/lists.py "LISTS COMMAND" PYTHON "REPAIR COMMAND" STREAM...
       bench/lists.py --from-python STREAM            (prints milliseconds; the module omphirun has to be found)
       bench/lists.py --small LEVEL MANY STREAM       (writes a stream of small triangles, no wider than a cell)
"""
import os
import random
import shlex
import subprocess
import sys
import time
from array import array

from programs import run

LEAST_ROUNDS, MOST_ROUNDS, SECONDS = 5, 400, 2.0


def best_of(job):
    """The best time of several rounds, in milliseconds."""
    best, end = float("inf"), time.perf_counter() + SECONDS
    for number in range(MOST_ROUNDS):
        if number >= LEAST_ROUNDS and time.perf_counter() > end:
            break
        best = min(best, 1e3 * job())
    return best


def from_python(stream):
    import omphirun
    with open(stream, "rb") as file:
        level, triangles = file.read(1)[0], array("i", file.read())
    grid, totals = bytearray(omphirun.POINTS(level)), array("H", bytes(2 * omphirun.TOTALS(level)))

    def mark_all():
        omphirun.open(level, grid, totals)
        start = time.perf_counter()
        omphirun.mark_all(level, grid, triangles, totals)
        return time.perf_counter() - start

    print(best_of(mark_all))


def write_small(level, many, path):
    """Triangles anywhere, no wider than a cell, the same in every run."""
    draw, lowest, width = random.Random(1), 1 << (19 - level), 1 << (19 - level)
    numbers = array("i")
    for _ in range(many):
        corner = [draw.randint(lowest, 524287 - lowest - width) for _ in range(3)]
        numbers.extend(corner[c % 3] + draw.randint(0, width) for c in range(9))
    with open(path, "wb") as file:
        file.write(bytes([level]) + numbers.tobytes())


def row(what, milliseconds, told=""):
    print(f"  {what:<38} {milliseconds:10.3f} ms   {told}".rstrip(), flush=True)


def time_list(lists, python, repair, stream):
    out = subprocess.run(lists + [stream], capture_output=True, text=True, check=True).stdout.split()
    triangles, (marked, plain, whole, each) = int(out[0]), map(float, out[1:])
    print(f"{os.path.basename(stream).split('.')[0].replace('_', ' ')}, {triangles} triangles")
    row("mark_all", marked)
    row("plain C that marks a list", plain, f"mark_all takes {marked / plain:.2f} of its time")
    row("mark for each", each, f"a tenth of them, times ten; mark_all is {each / marked:.0f} times faster")
    here = subprocess.run([python, os.path.abspath(__file__), "--from-python", stream], capture_output=True, text=True, check=True)
    row("mark_all from Python", float(here.stdout), f"{float(here.stdout) / marked:.2f} of the time from C")
    row("open, mark_all, patch, sign, surface", whole)
    program, printed = best_of(lambda: run(repair, stream)[0]), run(repair, stream)[1].decode().split("\n", 1)[0]
    told = f"which prints '{printed}'" if printed.startswith("refused") else f"the calls take {whole / program:.2f} of its time, start and output included"
    row("the program on the same stream", program, told)


def main(words):
    if len(words) == 2 and words[0] == "--from-python":
        from_python(words[1])
    elif len(words) == 4 and words[0] == "--small":
        write_small(int(words[1]), int(words[2]), words[3])
    elif len(words) > 3:
        for stream in words[3:]:
            time_list(shlex.split(words[0]), words[1], shlex.split(words[2]), stream)
    else:
        sys.exit(__doc__.split("\n\n")[1])


if __name__ == "__main__":
    main(sys.argv[1:])
