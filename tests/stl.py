#!/usr/bin/env python3
"""Holds what the library reads of a stock tool's binary STL to the same tool's text form of the same model. usage: tests/stl.py PROGRAM...

The text's decimals are rounded to floats, as the tool did, and from there on by fractions: times 2^e, to the nearest whole number, halves
away from zero. The text form itself has to be refused by its name.
"""
import os
import struct
import subprocess
import sys
from fractions import Fraction

MODELS = os.path.join(os.path.dirname(os.path.dirname(os.path.abspath(__file__))), "models")
POWERS = (-20, -3, -1, 0, 1, 3, 14, 20)


def corners(path):
    """The nine floats of each facet of a text file."""
    with open(path) as file:
        words = [line.split() for line in file]
    numbers = [struct.unpack("<f", struct.pack("<f", float(w)))[0] for line in words if line[:1] == ["vertex"] for w in line[1:]]
    return [numbers[at:at + 9] for at in range(0, len(numbers), 9)]


def nearest(number, e):
    size = (2 * abs(Fraction(number)) * Fraction(2) ** e + 1) // 2
    return -size if number < 0 else size


def run(program, name, e):
    out = subprocess.run(program + [os.path.join(MODELS, name), str(e)], capture_output=True, text=True, check=True).stdout
    return [[int(word) for word in line.split()] for line in out.splitlines()]


def main(program):
    facets = corners(os.path.join(MODELS, "hook_text.stl"))
    for e in POWERS:
        expected = [[nearest(number, e) for number in facet] for facet in facets]
        got = run(program, "hook.stl", e)
        if got != [[0, len(facets), 0]] + expected:
            sys.exit("tests/stl: hook.stl with e %d is not read as its text form says: %s" % (e, got[:2]))
    if run(program, "hook_text.stl", 0) != [[11, 0, 0]]:
        sys.exit("tests/stl: hook_text.stl is not named as the text form")
    print("tests/stl: %d triangles of a stock tool's file, with %d powers of two: as its text form says" % (len(facets), len(POWERS)))


main(sys.argv[1:])
