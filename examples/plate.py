#!/usr/bin/env python3
"""What an owner drops on the plate, from Python: a binary STL file is read, repaired, and written as STL again and as masks for the resin screen.

run:  PYTHONPATH=python OMPHIRUN_LIBRARY=PREFIX/lib/libomphirun.so python3 examples/plate.py models/hook.stl 13 hook_repaired.stl hook_masks.pbm
      (after ./install PREFIX; usage: plate.py FILE E REPAIRED MASKS)

It does what plate.c does, call by call, and leaves the same bytes. E is the power of two that the file's coordinates are multiplied by, -20 to 20:
they have to come to lie within the range of level 5, 16,384 to 507,903. Where numpy is installed numpy.zeros(room, "int32") would do for the list as
well, and so for every other buffer: memory is lent, and never copied.
"""
import sys
from array import array
from pathlib import Path

import omphirun

LEVEL = 5


def repair(file, e):
    """The repaired model as binary STL, the masks, and a line on what was done."""
    grid, work = bytearray(omphirun.POINTS(LEVEL)), bytearray(omphirun.POINTS(LEVEL))
    totals = array("H", bytes(2 * omphirun.TOTALS(LEVEL)))
    numbers = array("i", bytes(36 * (len(file) // 50)))  # nine numbers for each 50 bytes of the file: room enough for any

    triangles = omphirun.read_stl(file, e, numbers)
    omphirun.open(LEVEL, grid, totals)
    try:
        omphirun.mark_all(LEVEL, grid, memoryview(numbers)[:9 * triangles], totals)
    except omphirun.Refused as refused:
        if refused.place is not None:
            print(f"plate: {'xyz'[refused.axis]} of corner {'ABC'[refused.place % 9 // 3]} of triangle {refused.place // 9 + 1} is "
                  f"{numbers[refused.place]}, the range is {omphirun.LOWEST(LEVEL)} to {omphirun.HIGHEST(LEVEL)}", file=sys.stderr)
        raise
    patched = omphirun.patch(LEVEL, grid, work, totals)
    omphirun.sign(LEVEL, grid)

    stl, masks = bytearray(omphirun.STL(LEVEL)), bytearray(omphirun.MASKS(LEVEL))
    del stl[omphirun.write_stl(LEVEL, grid, e, stl):]
    omphirun.masks(LEVEL, grid, masks)
    return stl, masks, f"{triangles} triangles, {patched.rims} rims closed by {patched.flips} flips"


def main(words):
    if len(words) != 4:
        sys.exit("usage: plate.py FILE E REPAIRED MASKS")
    try:
        stl, masks, told = repair(Path(words[0]).read_bytes(), int(words[1]))
        Path(words[2]).write_bytes(stl)
        Path(words[3]).write_bytes(masks)
    except omphirun.Refused as refused:
        print(f"plate: {refused.call} is refused by {refused.number}", file=sys.stderr)
        return 1
    except (OSError, ValueError) as fault:
        print(f"plate: {fault}", file=sys.stderr)
        return 2
    print(told)
    print(f"{len(stl)} bytes of STL, {omphirun.CELLS(LEVEL) + 1} masks")
    return 0


if __name__ == "__main__":
    sys.exit(main(sys.argv[1:]))
