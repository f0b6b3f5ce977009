#!/usr/bin/env python3
"""Holds the repaired sample models to their truth. usage: tests/models.py LISTINGS (a folder with NAME.txt for each model, and a folder `owners` in it
with NAME.stl, as ./repair has written it, and NAME.report for each owner's model)

Each listing must be closed (each step from cell to cell as often as its reverse), every quad must run counterclockwise seen
from outside, and grid points further than a quarter of a cell from the true surface must lie on the right side of it. The box whose sides
lie on grid planes must have as many points inside as its volume has cells: no side of it thickens. What the README says
of models without damage must be so: one of them has rims, and a bowl that is a single sheet is filled.
"""
import collections
import math
import os
import struct
import sys

ROOT = os.path.dirname(os.path.dirname(os.path.abspath(__file__)))
sys.path.insert(0, os.path.join(ROOT, "models"))
import make  # noqa: E402
import models_owners  # noqa: E402

AWAY = 0.25  # cells from the surface; the facets of a turned shape lie up to a tenth of a cell under it
UNITS = ((1, 0, 0), (0, 1, 0), (0, 0, 1))


def add(p, q, times=1):
    return tuple(a + times * b for a, b in zip(p, q))


def hold(holds, claim):
    if not holds:
        raise AssertionError(claim)


def read_listing(path):
    """The numbers of the two headings, and the quads as tuples of cell numbers."""
    with open(path) as file:
        lines = file.read().splitlines()
    hold(len(lines) >= 2, "the listing has two headings: " + " ".join(lines[:1]))
    first, second = lines[0].split(), lines[1].split()
    hold(first[0::2] == ["level", "triangles"] and second[0::2] == ["rims", "flips", "inside", "quads"], "the headings' words")
    hold(all(line.startswith("q ") for line in lines[2:]), "every further line is a quad")
    quads = [tuple(map(int, line.split()[1:])) for line in lines[2:]]
    hold(all(len(q) == 4 for q in quads), "four cells a quad")
    return [int(n) for n in first[1::2] + second[1::2]], quads


def closed(quads):
    steps = collections.Counter((q[c], q[(c + 1) % 4]) for q in quads for c in range(4))
    return all(steps[b, a] == many for (a, b), many in steps.items())


def edge_of(quad, n):
    """The axis and lower end of the edge that the four cells surround, and whether they run counterclockwise seen from above."""
    cells = [(c % n, c // n % n, c // n // n) for c in quad]
    along = [axis for axis in range(3) if len({c[axis] for c in cells}) == 1]
    low, high = (tuple(f(c[axis] for c in cells) for axis in range(3)) for f in (min, max))
    hold(len(along) == 1 and len(set(cells)) == 4, "four cells around one edge")
    hold(sum(h - l for l, h in zip(low, high)) == 2, "the four cells touch")
    axis = along[0]
    u, v = (axis + 1) % 3, (axis + 2) % 3
    area = sum(a[u] * b[v] - a[v] * b[u] for a, b in zip(cells, cells[1:] + cells[:1]))
    hold(abs(area) == 2, "a quad that goes once around")
    return axis, high, area > 0


def signs_of(marks, n):
    """The points inside, by parity along x; every other edge must agree."""
    inside = set()
    for k in range(n + 1):
        for j in range(n + 1):
            sign = False
            for i in range(n + 1):
                if sign:
                    inside.add((i, j, k))
                sign ^= (0, (i, j, k)) in marks
            hold(not sign, "a row of edges along x ends outside")
    for axis in range(3):
        for k in range(n + 1):
            for j in range(n + 1):
                for i in range(n + 1):
                    p = (i, j, k)
                    change = (p in inside) != (add(p, UNITS[axis]) in inside)
                    hold(change == ((axis, p) in marks), "signs change exactly across marked edges")
    return inside


def cross(a, b):
    return (a[1] * b[2] - a[2] * b[1], a[2] * b[0] - a[0] * b[2], a[0] * b[1] - a[1] * b[0])


def met(triangle, edge):
    """Document 01's thirteen axes."""
    a, b, c = triangle
    sides = (add(b, a, -1), add(c, b, -1), add(a, c, -1))
    axes = list(UNITS) + [cross(sides[0], add(c, a, -1))] + [cross(u, s) for u in UNITS for s in sides]
    for axis in axes:
        one, two = ([sum(x * y for x, y in zip(axis, p)) for p in shape] for shape in (triangle, edge))
        if max(one) < min(two) or max(two) < min(one):
            return False
    return True


def filled_by_rays(level, triangles):
    """How many points of the lampshade's hollow lie inside by parity along x on the grid as the triangles mark it."""
    n, side, filled = 1 << level, 1 << (20 - level), 0
    for k in range(1, n):
        for j in range(1, n):
            near = [t for t in triangles if all(min(p[d] for p in t) <= at * side <= max(p[d] for p in t) for d, at in ((1, j), (2, k)))]
            sign = False
            for i in range(n):
                filled += sign and make.lampshade_hollow((i, j, k))
                edge = ((i * side, j * side, k * side), ((i + 1) * side, j * side, k * side))
                sign ^= any(met(t, edge) for t in near)
    return filled


def stream_of(name):
    with open(os.path.join(ROOT, "models", name + ".bin"), "rb") as file:
        return triangles_of(file.read())


def triangles_of(stream):
    """The level, and the triangles where they are tested."""
    numbers = [[2 * v + 1 for v in struct.unpack_from("<9i", stream, at)] for at in range(1, len(stream), 36)]
    return stream[0], [(t[0:3], t[3:6], t[6:9]) for t in numbers]


def volume(low, high):
    """Cells in a box."""
    return math.prod(h - l for l, h in zip(low, high))


def check(name, listing):
    """Answers what there is to tell about a model that holds."""
    (level, triangles, rims, flips, inside_count, quad_count), quads = read_listing(listing)
    its_level, its_triangles = stream_of(name)
    depth, n = make.MODELS[name][2], 1 << level
    hold((level, triangles) == (its_level, len(its_triangles)), "level and triangles of the stream")
    hold(quad_count == len(quads), "the number of quads")
    hold(closed(quads), "the quads are closed")
    edges = [edge_of(q, n) for q in quads]
    marks = {(axis, p) for axis, p, _ in edges}
    hold(len(marks) == len(quads), "one quad an edge")
    inside = signs_of(marks, n)
    hold(len(inside) == inside_count, "the number of inside points")
    hold(all(up == (p in inside) for _, p, up in edges), "quads run counterclockwise seen from outside")
    points = [(i, j, k) for k in range(n + 1) for j in range(n + 1) for i in range(n + 1)]
    known = [p for p in points if abs(depth(p)) > AWAY]
    wrong = [p for p in known if (depth(p) > 0) != (p in inside)]
    hold(not wrong, f"{len(wrong)} of {len(known)} points away from the surface on the wrong side, first {wrong[:3]}")
    deep = sum(depth(p) > 0 for p in known)
    hold(deep > 100, "the truth has an inside")
    hold(name != "box_on_planes" or (rims, inside_count) == (0, volume(*make.PLANES)), "the box on grid planes has its true volume, and no rim")
    hold(name != "lampshade" or not any(map(make.lampshade_hollow, inside)), "the hollow of the lampshade stays hollow")
    return f"{triangles} triangles, {rims} rims, {flips} flips, {len(quads)} quads closed; {deep} points inside and {len(known) - deep} outside right"


def check_whole(name, listing):
    """Answers what there is to tell about a model without damage."""
    (_, _, rims, flips, inside, _), _ = read_listing(listing)
    hold((rims > 0) == (name != "whole_sphere"), "which models without damage have rims")
    hold(name != "sheet_bowl" or inside > 2 / 3 * math.pi * make.BOWL ** 3 * 0.9, "a bowl of one sheet is filled")
    return f"nothing is missing, and it has {rims} rims, {flips} flips, {inside} points inside"


def main(words):
    if len(words) != 1:
        sys.exit("usage: tests/models.py LISTINGS")
    failed = 0
    for names, test in ((make.MODELS, check), (make.WHOLE, check_whole)):
        for name in names:
            try:
                print(f"{name}: {test(name, os.path.join(words[0], name + '.txt'))}")
            except (AssertionError, OSError) as fault:
                failed += 1
                print(f"{name}: DOES NOT HOLD: {fault}")
    gap, whole = filled_by_rays(*stream_of("lampshade")), filled_by_rays(*triangles_of(make.stream_of(5, make.lampshade_triangles(32, 6))))
    print(f"lampshade: on the unrepaired grid parity along one ray fills {gap} points of its hollow, {whole} with the triangle back")
    if gap == 0 or whole != 0:
        failed += 1
        print("lampshade: DOES NOT HOLD: the sample no longer shows the slip")
    for name in make.OWNERS:
        try:
            print(f"{name}.stl: {models_owners.check(name, os.path.join(words[0], 'owners'))}")
        except (AssertionError, OSError, AttributeError) as fault:
            failed += 1
            print(f"{name}.stl: DOES NOT HOLD: {fault}")
    print(f"tests/models: {len(make.MODELS) + len(make.WHOLE)} models, {len(make.OWNERS)} STL files of owners, {failed} failures")
    sys.exit(1 if failed else 0)


if __name__ == "__main__":
    main(sys.argv[1:])
