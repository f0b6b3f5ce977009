"""A repair, step by step: marks, odd faces, rims, patches, signs, quads; everything that an account tells."""
from typing import NamedTuple

from faults import Refusal
from halving import flips_of, patch
from marking import mark
from quads import all_quads
from reading import as_stream
from rims import Box, box_of, count_marks, find_rims, odd_faces
from signs import inside_points

MOST_QUADS = 8192


class Rim(NamedTuple):
    number: int
    faces: list
    box: Box
    cuts: list
    flips: set


class Repair(NamedTuple):
    level: object
    marks: dict      # as they came: each marked edge with the numbers of its triangles, none where a job began from marks
    counts: dict     # each face with marks, as they came: how many
    rims: list
    flips: set       # every rim's flips; one made for two rims cancels
    patched: set
    inside: set
    quads: list      # each marked edge with its four cells

    def added(self):
        return self.flips - set(self.marks)

    def taken(self):
        return self.flips & set(self.marks)

    def cancelled(self):
        """Edges that rims flip, and that are as they came."""
        return set().union(*(rim.flips for rim in self.rims)) - self.flips

    def gaps(self, faces):
        return [face for face in faces if self.counts[face] == 1]

    def membranes(self, faces):
        return [face for face in faces if self.counts[face] == 3]

    def rim_of(self, face):
        return next((rim for rim in self.rims if face in rim.faces), None)

    def odd(self):
        return [face for rim in self.rims for face in rim.faces]


def repair_marks(level, marks):
    """Patch, sign and surface of a grid: all rims are taken from the grid as it came."""
    counts = count_marks(marks)
    rims = []
    for number, faces in enumerate(find_rims(level, odd_faces(counts)), 1):
        cuts = patch(level, box_of(faces), set(faces))
        rims.append(Rim(number, faces, box_of(faces), cuts, flips_of(cuts)))
    flips = set()
    for rim in rims:
        flips ^= rim.flips
    patched = set(marks) ^ flips
    inside = inside_points(level, patched)
    return Repair(level, marks, counts, rims, flips, patched, inside, all_quads(level, patched, inside))


def repair_case(case):
    """The repair of triangles, or of the marks that a job begins from; 8 where the program's list is too short for it."""
    if case.triangles is None:
        repair, stream = repair_marks(case.level, {edge: [] for edge in case.marks}), None
    else:
        repair, stream = repair_marks(case.level, mark(case.level, case.triangles)), as_stream(case.level, case.triangles)
    if len(repair.quads) > MOST_QUADS:
        raise Refusal(8, "the surface has more than 8,192 quads", stream)
    return repair
