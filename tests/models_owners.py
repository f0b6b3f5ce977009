"""Holds what ./repair gives back for owners' STL files to the shapes that they are meant to be.

The surface is read back as any slicer would: it must be closed and turn outwards, and the grid points inside it are found from its facets alone. Away
from the true surface every point must lie on the right side, and the volume must be that of the shape, as near as a grid can have it; but for shapes
that the method cannot do, which have to show it.
"""
import collections
import os
import re
import struct

import make

FAR = 0.6  # grid cells from the true surface: a flat side between two points is at most half a cell from the nearer, and facets lie under a turned shape
NEAR_ENOUGH = 0.06  # of the volume


def hold(holds, claim):
    if not holds:
        raise AssertionError(claim)


def facets_of(path):
    """The normal and the three corners of each facet."""
    with open(path, "rb") as file:
        data = file.read()
    count = struct.unpack_from("<I", data, 80)[0]
    hold(len(data) == 84 + 50 * count, "the file's length")
    return [(r[0:3], (r[3:6], r[6:9], r[9:12])) for r in (struct.unpack_from("<12f", data, 84 + 50 * t) for t in range(count))]


def told(report, word):
    return float(re.search(rf"^  {word} +([-+.e\d]+)", report, re.M).group(1))


def inside_of(facets, cell):
    """The grid points inside, by the facets square to x alone: where a row of points goes in and out. Two facets make a quad around an edge's middle."""
    rows = collections.defaultdict(list)
    for normal, corners in facets:
        if normal[0]:
            middle = [(min(c) + max(c)) / 2 for c in zip(*corners)]
            rows[round(middle[1] / cell * 4), round(middle[2] / cell * 4)].append((middle, normal[0]))
    inside = []
    for quads in rows.values():
        quads = sorted(quads)[::2]  # the two facets of a quad have one middle
        hold(len(quads) % 2 == 0 and all(n == (-1, 1)[k % 2] for k, (_, n) in enumerate(quads)), "a row goes in and out by turns")
        for (low, _), (high, _) in zip(quads[::2], quads[1::2]):
            steps = round((high[0] - low[0]) / cell)
            inside += [(low[0] + (s + 0.5) * cell, low[1], low[2]) for s in range(steps)]
    return inside


def grid_around(inside, cell):
    """All grid points of the smallest box around the points inside, and two cells more on each side."""
    ends = [(min(c) - 2 * cell, round((max(c) - min(c)) / cell) + 5) for c in zip(*inside)]
    return [(ends[0][0] + i * cell, ends[1][0] + j * cell, ends[2][0] + k * cell) for k in range(ends[2][1]) for j in range(ends[1][1])
            for i in range(ends[0][1])]


def check(name, folder):
    """Answers what there is to tell about a model that holds."""
    _, depth, unknown, cells, possible = make.OWNERS[name]
    with open(os.path.join(folder, name + ".report")) as file:
        report = file.read()
    facets, cell, truth = facets_of(os.path.join(folder, name + ".stl")), told(report, "cell"), cells * make.UNIT ** 3
    steps = collections.Counter((c[k], c[(k + 1) % 3]) for _, c in facets for k in range(3))
    hold(len(facets) == 2 * told(report, "quads") and all(steps[b, a] == many for (a, b), many in steps.items()), "the surface is closed")
    inside = inside_of(facets, cell)
    hold(len(inside) == told(report, "inside") and abs(told(report, "volume") / (len(inside) * cell ** 3) - 1) < 1e-5, "points inside and volume as reported")
    depths = {p: depth(make.disowned(p)) * make.UNIT / cell for p in grid_around(inside, cell)}
    key = {tuple(round(c / cell * 4) for c in p) for p in inside}
    hold(len(key) == len(inside), "each point once")
    known = [p for p, d in depths.items() if abs(d) > FAR + unknown]
    wrong = [p for p in known if (depths[p] > 0) != (tuple(round(c / cell * 4) for c in p) in key)]
    off, meant = told(report, "volume") / truth - 1, sum(d > 0 for d in depths.values())
    line = (f"volume {told(report, 'volume'):.6g} where the shape has {truth:.6g} ({100 * off:+.1f} %), {len(inside)} points inside where it has {meant}, "
            f"{len(wrong)} of {len(known)} away from its surface on the wrong side")
    if possible:
        hold(not wrong and abs(off) < NEAR_ENOUGH, line)
        hold(name != "box_on_planes" or (len(inside), told(report, "rims")) == (20 * 12 * 18, 0),
             f"the box on grid planes has its true volume, and no rim: {line}")
        return line
    hold(wrong or abs(off) > NEAR_ENOUGH, "the method can do it now: " + line)
    return "not to be had by this method: " + line
