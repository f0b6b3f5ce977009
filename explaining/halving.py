"""The patch of a rim, found by halving its box, with every choice on the way kept: cuts, faces listed, pairs, paths and flips."""
from typing import NamedTuple

from faults import Trouble
from lattice import OTHERS, by_number, faces_of_edge
from rims import Box


class Path(NamedTuple):
    """The flips that join two faces of a pair, one a step."""
    first: tuple
    second: tuple
    flips: list


class Cut(NamedTuple):
    box: Box
    axis: int
    plane: int
    faces: list
    paths: list


def choose_cut(box):
    """The longest side, x before y before z when equal, is cut at m = a + floor(l/2)."""
    sides = box.sides
    a = sides.index(max(sides))
    return a, box.low[a] + sides[a] // 2


def halves(box, a, m):
    def moved(corner):
        return tuple(m if b == a else c for b, c in enumerate(corner))
    return Box(box.low, moved(box.high)), Box(moved(box.low), box.high)


def steps(start, stop):
    """The larger of a step's two coordinates, for each step from one coordinate to another."""
    if start < stop:
        return range(start + 1, stop + 1)
    return range(start, stop, -1)


def path(first, second):
    """First along the earlier of the two axes of the plane, then along the later."""
    a, start = first
    _, stop = second
    b, c = OTHERS[a]
    flips = []
    for larger in steps(start[b], stop[b]):
        flips.append((c, tuple(larger if d == b else x for d, x in enumerate(start))))
    turn = tuple(stop[b] if d == b else x for d, x in enumerate(start))
    for larger in steps(start[c], stop[c]):
        flips.append((b, tuple(larger if d == c else x for d, x in enumerate(turn))))
    return Path(first, second, flips)


def patch(level, box, faces):
    """The cuts of a box with its working faces, in order: a box, its lower half, its upper half. One without working faces gives nothing."""
    if max(box.sides) == 1 or not faces:
        return []
    a, m = choose_cut(box)
    listed = sorted((f for f in faces if f[0] == a and f[1][a] == m), key=by_number(level))
    if len(listed) % 2:
        raise Trouble(f"{len(listed)} working faces lie in one cut plane, and there is always an even number")
    paths = [path(one, other) for one, other in zip(listed[0::2], listed[1::2])]
    working = set(faces)
    for joined in paths:
        for edge in joined.flips:
            working.symmetric_difference_update(faces_of_edge(edge))
    cuts = [Cut(box, a, m, listed, paths)]
    for half in halves(box, a, m):
        cuts += patch(level, half, {f for f in working if half.has_face(f)})
    return cuts


def flips_of(cuts):
    """An edge flipped twice is not flipped."""
    flips = set()
    for cut in cuts:
        for joined in cut.paths:
            flips.symmetric_difference_update(joined.flips)
    return flips
