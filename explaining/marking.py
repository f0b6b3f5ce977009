"""Which edges a triangle meets: thirteen axes, in whole numbers. An edge is met when no axis separates."""
from lattice import LETTERS, OTHERS, UNITS, ends, place


def difference(p, q):
    return p[0] - q[0], p[1] - q[1], p[2] - q[2]


def cross(u, v):
    return u[1] * v[2] - u[2] * v[1], u[2] * v[0] - u[0] * v[2], u[0] * v[1] - u[1] * v[0]


def dot(u, v):
    return u[0] * v[0] + u[1] * v[1] + u[2] * v[2]


def corners(triangle):
    """A, B and C on the lattice, of nine numbers."""
    places = [place(v) for v in triangle]
    return tuple(places[0:3]), tuple(places[3:6]), tuple(places[6:9])


def crossed_axes(abc):
    """N = (B-A) cross (C-A), and each unit vector crossed with each of B-A, C-B, A-C; with their names."""
    a, b, c = abc
    sides = (("B-A", difference(b, a)), ("C-B", difference(c, b)), ("A-C", difference(a, c)))
    yield "N", cross(sides[0][1], difference(c, a))
    for letter, unit in zip(LETTERS, UNITS):
        for side, vector in sides:
            yield f"{letter} cross ({side})", cross(unit, vector)


def axes(abc):
    """The thirteen, in the order of the rules."""
    return [*zip(LETTERS, UNITS), *crossed_axes(abc)]


def span(axis, places):
    dots = [dot(axis, p) for p in places]
    return min(dots), max(dots)


def apart(one, other):
    """One span ends strictly before the other begins."""
    return one[1] < other[0] or other[1] < one[0]


def places_of(level, edge):
    """The two ends of an edge on the lattice."""
    return [tuple(level.side * c for c in p) for p in ends(edge)]


def spans(level, triangle, edge):
    """For each axis: its name, the axis, the triangle's span and the edge's."""
    abc, line = corners(triangle), places_of(level, edge)
    return [(word, axis, span(axis, abc), span(axis, line)) for word, axis in axes(abc)]


def between(low, high, side):
    """The numbers of the grid planes from low to high."""
    return range(-(-low // side), high // side + 1)


def not_apart_by_units(level, abc):
    """The edges that no unit vector separates, in the three directions."""
    side = level.side
    box = [(min(c), max(c)) for c in zip(*abc)]
    for a in range(3):
        ranges = [between(low, high, side) for low, high in box]
        ranges[a] = between(box[a][0] - side, box[a][1], side)
        for k in ranges[2]:
            for j in ranges[1]:
                for i in ranges[0]:
                    yield a, (i, j, k)


def edges_met(level, triangle):
    """Every edge that the triangle meets. The unit vectors come first, so that most edges are never looked at."""
    abc = corners(triangle)
    left = list(not_apart_by_units(level, abc))
    if not left:
        return []
    kept = [(axis, span(axis, abc)) for _, axis in crossed_axes(abc)]
    side = level.side
    met = []
    for a, (i, j, k) in left:
        for axis, shadow in kept:
            lower = side * (axis[0] * i + axis[1] * j + axis[2] * k)
            upper = lower + side * axis[a]
            if apart(shadow, (lower, upper) if lower < upper else (upper, lower)):
                break
        else:
            met.append((a, (i, j, k)))
    return met


def mark(level, triangles):
    """The marks of all triangles: for each marked edge the numbers of the triangles that meet it, counted from 1."""
    marks = {}
    for number, triangle in enumerate(triangles, 1):
        for edge in edges_met(level, triangle):
            marks.setdefault(edge, []).append(number)
    return marks


def meets_alone(level, edge):
    """A triangle of no area that meets this edge and no other, nine places on the lattice, all odd: it goes through the edge's middle."""
    a, p = edge
    low, high = ([level.side * c + by for c in p] for by in (-1, 1))
    low[a] = high[a] = level.side * p[a] + level.side // 2 + 1
    return (*low, *high, *high)
