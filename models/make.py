#!/usr/bin/env python3
"""Makes the sample models: streams for `repair`, each with a truth that tests/models.py holds its repair to.

A stream is one level byte, then nine little-endian i32 a triangle. Shapes are given in cells of the level and become model
coordinates at the end. Walls are more than one and a half cells thick: thinner ones do not survive on so few cells.

usage: models/make.py [FOLDER]                          writes every model into the folder (this one when none is given)
       models/make.py --whole FOLDER                    writes models without damage, one of which has rims all the same, and a bowl of one sheet
       models/make.py --lampshade TRIANGLES LEVEL FILE  writes a whole lampshade of about so many triangles
       models/make.py --owners FOLDER                   writes models as owners have them: binary STL files, in units and at a place of their own
       models/make.py --stl TRIANGLES FILE              writes a whole lampshade of about so many triangles as binary STL
"""
import math
import os
import random
import struct
import sys

MIDDLE = 16.0  # the middle of the grid in cells at level 5


def stream_of(level, triangles):
    """The stream of a model: corners in cells become model coordinates, of which S/2 make a cell's side."""
    side = 1 << (19 - level)
    stream = bytearray([level])
    for triangle in triangles:
        stream += struct.pack("<9i", *(round(c * side) for corner in triangle for c in corner))
    return bytes(stream)


def quad(a, b, c, d):
    """Two triangles, none where corners coincide."""
    return [t for t in ((a, b, c), (a, c, d)) if len(set(t)) == 3]


def turned(profile, segments, closed=True):
    """The profile of (radius, height) corners, closed or not, turned about the upright line through the middle."""
    def corner(radius, height, segment):
        angle = 2 * math.pi * ((segment % segments) + 0.5) / segments
        return (MIDDLE + radius * math.cos(angle), MIDDLE + radius * math.sin(angle), height)
    triangles = []
    for (r, h), (s, g) in zip(profile, profile[1:] + profile[:1] * closed):
        for segment in range(segments):
            if r or s:
                triangles += quad(corner(r, h, segment), corner(r, h, segment + 1), corner(s, g, segment + 1), corner(s, g, segment))
    return triangles


def steps(start, end, many):
    """The corners from start up to end, which is not among them."""
    return [tuple(a + (b - a) * n / many for a, b in zip(start, end)) for n in range(many)]


def arc(radius, height, start, end, many):
    """Corners on a circle about (0, height), from one angle to another, both among them."""
    angles = [start + (end - start) * n / many for n in range(many + 1)]
    return [(radius * math.cos(a) if abs(math.cos(a)) > 1e-9 else 0.0, height + radius * math.sin(a)) for a in angles]


def box(low, high):
    """The twelve triangles of a box."""
    def corner(*upper):
        return tuple(h if u else l for u, l, h in zip(upper, low, high))
    sides = [((0, 0, 0), (0, 0, 1), (0, 1, 1), (0, 1, 0)), ((1, 0, 0), (1, 1, 0), (1, 1, 1), (1, 0, 1)),
             ((0, 0, 0), (1, 0, 0), (1, 0, 1), (0, 0, 1)), ((0, 1, 0), (0, 1, 1), (1, 1, 1), (1, 1, 0)),
             ((0, 0, 0), (0, 1, 0), (1, 1, 0), (1, 0, 0)), ((0, 0, 1), (1, 0, 1), (1, 1, 1), (0, 1, 1))]
    return [t for side in sides for t in quad(*(corner(*c) for c in side))]


def centre(triangle):
    return tuple(sum(c) / 3 for c in zip(*triangle))


def from_middle(p, height=MIDDLE):
    return math.dist(p, (MIDDLE, MIDDLE, height))


# Each depth below says how far a place lies under the true surface, in cells; below 0 it lies outside.

FOOT, TOP, WALL = (13.0, 5.2), (8.0, 26.8), 2.5


def lampshade_triangles(segments, rings):
    foot, top = FOOT, TOP
    inner_foot, inner_top = (foot[0] - WALL, foot[1]), (top[0] - WALL, top[1])
    return turned(steps(foot, top, rings) + [top] + steps(inner_top, inner_foot, rings) + [inner_foot], segments)


def fitted_lampshade(many, level):
    """A whole lampshade of about so many triangles, as large as the level's range allows."""
    rings = max(1, round(math.sqrt(many / 16)))
    half = 2 ** level / 2
    scale = min(half / MIDDLE, 0.999 * (half - 1) / FOOT[0])
    def place(corner):
        return tuple(half + scale * (c - MIDDLE) for c in corner)
    return [tuple(map(place, t)) for t in lampshade_triangles(max(3, many // (4 * rings + 4)), rings)]


def lampshade_depth(p):
    radius, share = math.hypot(p[0] - MIDDLE, p[1] - MIDDLE), (p[2] - FOOT[1]) / (TOP[1] - FOOT[1])
    outer, upright = FOOT[0] + (TOP[0] - FOOT[0]) * share, TOP[1] - FOOT[1]
    slant = upright / math.hypot(upright, FOOT[0] - TOP[0])
    return min((outer - radius) * slant, (radius - outer + WALL) * slant, p[2] - FOOT[1], TOP[1] - p[2])


def lampshade_hollow(p):
    """The open room that the wall surrounds, away from the wall and from both openings."""
    radius, share = math.hypot(p[0] - MIDDLE, p[1] - MIDDLE), (p[2] - FOOT[1]) / (TOP[1] - FOOT[1])
    return FOOT[1] + 1 < p[2] < TOP[1] - 1 and radius < FOOT[0] + (TOP[0] - FOOT[0]) * share - WALL - 1


def lampshade():
    """One triangle of the outer wall is missing, on the side that a ray along x comes from."""
    triangles = lampshade_triangles(32, 6)
    gap = min(triangles, key=lambda t: math.dist(centre(t), (MIDDLE - 10.5, MIDDLE, 16)))
    triangles.remove(gap)
    return triangles


BOWL, RIM = 13.5, 22.3


def bowl():
    """A half ball of wall, open at the top; five triangles are missing."""
    outer, inner = arc(BOWL, RIM, -math.pi / 2, 0, 8), arc(BOWL - 3, RIM, 0, -math.pi / 2, 8)
    triangles = turned(outer + inner, 32)
    for gap in random.Random(5).sample(range(len(triangles)), 5):
        triangles[gap] = None
    return [t for t in triangles if t]


def sheet_bowl():
    """The outer side of the bowl alone, a sheet without a wall."""
    return turned(arc(BOWL, RIM, -math.pi / 2, 0, 8), 32, closed=False)


def bowl_depth(p):
    radius = from_middle(p, RIM)
    return min(BOWL - radius, radius - BOWL + 3, RIM - p[2])


BALL, GAP = 12.0, math.cos(math.radians(30))


def sphere(segments, rings, radius):
    return turned(arc(radius, MIDDLE, -math.pi / 2, math.pi / 2, rings), segments)


def sphere_with_hole():
    """Everything within 30 degrees of the direction against x is missing."""
    return [t for t in sphere(32, 16, BALL) if (MIDDLE - centre(t)[0]) / from_middle(centre(t)) < GAP]


def sphere_with_hole_depth(p):
    """Where the hole was there is no truth: any skin over it will do."""
    return 0.0 if MIDDLE - p[0] > BALL * GAP - 2 else BALL - from_middle(p)


def soup():
    """A ball whose triangles lie a little apart, and a third of them are missing."""
    draw = random.Random(6)
    whole = sphere(48, 24, BALL)
    left = draw.sample(whole, k=len(whole) * 2 // 3)
    return [tuple(tuple(c + draw.uniform(-0.03, 0.03) for c in corner) for corner in t) for t in left]


def ball_depth(p):
    return BALL - from_middle(p)


def soup_depth(p):
    """Near the skin so much is missing that only what lies one and a half cells further off is known."""
    depth = ball_depth(p)
    return math.copysign(max(abs(depth) - 1.5, 0), depth)


ROOM = ((5.3, 5.4, 5.3), (26.7, 24.6, 22.7))


def box_depth(p, low, high):
    return min(min(c - l, h - c) for c, l, h in zip(p, low, high))


def box_with_membrane():
    """A sheet across the inside from wall to wall: it bounds nothing and has to go."""
    (_, y, z), (_, t, u) = ROOM
    return box(*ROOM) + quad((15.4, y, z), (15.4, t, z), (15.4, t, u), (15.4, y, u))


PLANES = ((6.0, 8.0, 5.0), (26.0, 20.0, 24.0))


def box_on_planes():
    """Each side lies on a grid plane, as near as a model coordinate can: it must not thicken."""
    return box(*PLANES)


ONE, TWO = ((4.3, 4.4, 4.3), (18.6, 17.7, 16.6)), ((11.4, 10.3, 8.4), (27.3, 26.4, 25.3))


def overlapping_boxes():
    """Inside and outside are taken by parity: what lies in both boxes becomes hollow."""
    return box(*ONE) + box(*TWO)


def overlapping_boxes_depth(p):
    one, two = box_depth(p, *ONE), box_depth(p, *TWO)
    return min(abs(one), abs(two)) * (1 if (one > 0) != (two > 0) else -1)


# Name: level, triangles, depth.
MODELS = {
    "lampshade": (5, lampshade, lampshade_depth),
    "bowl": (5, bowl, bowl_depth),
    "sphere_with_hole": (5, sphere_with_hole, sphere_with_hole_depth),
    "soup": (5, soup, soup_depth),
    "box_with_membrane": (5, box_with_membrane, lambda p: box_depth(p, *ROOM)),
    "box_on_planes": (5, box_on_planes, lambda p: box_depth(p, *PLANES)),
    "overlapping_boxes": (5, overlapping_boxes, overlapping_boxes_depth),
}


# Nothing is missing from these.
WHOLE = {
    "whole_lampshade": lambda: lampshade_triangles(32, 6),
    "whole_sphere": lambda: sphere(32, 16, BALL),
    "sheet_bowl": sheet_bowl,
}


# What owners bring, as binary STL: a cell above is UNIT of theirs, and the model stands at a place of its own. Each has its depth as above, how far
# from its skin so much is missing that nothing is known, its volume in cells, and whether the method can do it.
UNIT, PLACE = 1.1, (-20.0, 35.0, 7.5)


def owned(corner):
    return tuple(UNIT * (c + p) for c, p in zip(corner, PLACE))


def disowned(corner):
    return tuple(c / UNIT - p for c, p in zip(corner, PLACE))


def moved(triangles, by):
    return [tuple(tuple(c + d for c, d in zip(corner, by)) for corner in t) for t in triangles]


def ball_volume(radius):
    return 4 / 3 * math.pi * radius ** 3


def frustum_volume(foot, top):
    return math.pi / 3 * (TOP[1] - FOOT[1]) * (foot * foot + foot * top + top * top)


def ball_lacking_a_third():
    """A third of all triangles are missing, at random."""
    whole = sphere(48, 24, BALL)
    return random.Random(7).sample(whole, k=len(whole) - len(whole) // 3)


CAVITY = 6.0


def ball_with_cavity():
    return sphere(48, 24, BALL) + sphere(32, 16, CAVITY)


def ball_with_cavity_depth(p):
    return min(BALL - from_middle(p), from_middle(p) - CAVITY)


BODY, OTHER, SMALL = ((3.0, 10.0, 8.0), (13.0, 22.0, 24.0)), (6.0, 0.0, 0.0), 6.0


def two_bodies():
    """A box, and a ball beside it."""
    return box(*BODY) + moved(sphere(32, 16, SMALL), OTHER)


def two_bodies_depth(p):
    return max(box_depth(p, *BODY), SMALL - math.dist(p, tuple(MIDDLE + c for c in OTHER)))


def box_volume(low, high):
    return math.prod(h - l for l, h in zip(low, high))


ON_PLANES = 20 / UNIT, 12 / UNIT, 18 / UNIT  # even numbers of the owner's units: fitted, the sides lie next to grid planes
OVERLAP = tuple(map(max, ONE[0], TWO[0])), tuple(map(min, ONE[1], TWO[1]))
SHELL, THIN = ((4.3, 4.3, 4.3), (27.7, 27.7, 27.7)), 0.5
HOLLOW = tuple(c + THIN for c in SHELL[0]), tuple(c - THIN for c in SHELL[1])

# Name: triangles, depth, what is not known of it, volume, whether the method can do it.
OWNERS = {
    "lampshade_lacking_a_triangle": (lampshade, lampshade_depth, 0, frustum_volume(FOOT[0], TOP[0]) - frustum_volume(FOOT[0] - WALL, TOP[0] - WALL), True),
    "ball_lacking_a_third": (ball_lacking_a_third, ball_depth, 1.5, ball_volume(BALL), True),
    "ball_with_cavity": (ball_with_cavity, ball_with_cavity_depth, 0, ball_volume(BALL) - ball_volume(CAVITY), True),
    "box_on_planes": (lambda: box((0.0,) * 3, ON_PLANES), lambda p: box_depth(p, (0.0,) * 3, ON_PLANES), 0, box_volume((0.0,) * 3, ON_PLANES), True),
    "two_bodies": (two_bodies, two_bodies_depth, 0, box_volume(*BODY) + ball_volume(SMALL), True),
    "soup": (soup, ball_depth, 1.5, ball_volume(BALL), True),
    "overlapping_boxes": (overlapping_boxes, lambda p: max(box_depth(p, *ONE), box_depth(p, *TWO)), 0,
                          box_volume(*ONE) + box_volume(*TWO) - box_volume(*OVERLAP), False),
    "box_of_thin_walls": (lambda: box(*SHELL) + box(*HOLLOW), lambda p: min(box_depth(p, *SHELL), -box_depth(p, *HOLLOW)), 0,
                          box_volume(*SHELL) - box_volume(*HOLLOW), False),
}


def stl_of(triangles):
    """A binary STL file with zeros for header, normals and attributes, which no reader needs."""
    records = [bytes(12) + struct.pack("<9f", *(c for corner in t for c in corner)) + bytes(2) for t in triangles]
    return bytes(80) + struct.pack("<I", len(records)) + b"".join(records)


def write_bytes(path, data):
    with open(path, "wb") as file:
        file.write(data)


def write(path, level, triangles):
    with open(path, "wb") as file:
        file.write(stream_of(level, triangles))


def main(words):
    if len(words) == 4 and words[0] == "--lampshade" and words[1].isdigit() and words[2] in ("2", "3", "4", "5"):
        write(words[3], int(words[2]), fitted_lampshade(int(words[1]), int(words[2])))
    elif len(words) == 3 and words[0] == "--stl" and words[1].isdigit():
        write_bytes(words[2], stl_of([tuple(map(owned, t)) for t in fitted_lampshade(int(words[1]), 5)]))
    elif len(words) == 2 and words[0] == "--owners" and os.path.isdir(words[1]):
        for name, (make, *_) in OWNERS.items():
            write_bytes(os.path.join(words[1], name + ".stl"), stl_of([tuple(map(owned, t)) for t in make()]))
    elif len(words) == 2 and words[0] == "--whole" and os.path.isdir(words[1]):
        for name, make in WHOLE.items():
            write(os.path.join(words[1], name + ".bin"), 5, make())
    elif not words or (len(words) == 1 and os.path.isdir(words[0])):
        folder = words[0] if words else os.path.dirname(os.path.abspath(__file__))
        for name, (level, make, _) in MODELS.items():
            write(os.path.join(folder, name + ".bin"), level, make())
    else:
        sys.exit("usage: models/make.py [FOLDER] | --whole FOLDER | --lampshade TRIANGLES LEVEL FILE | --owners FOLDER | --stl TRIANGLES FILE")


if __name__ == "__main__":
    main(sys.argv[1:])
