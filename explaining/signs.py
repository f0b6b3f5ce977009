"""Signs: point (0,0,0) is outside, and signs differ across an edge exactly when it is marked. A sign is told by a route."""


def route(point):
    """The edges from (0,0,0) to a point: along z, along y, then along x. Those before the last stretch lie on the outside of the grid."""
    i, j, k = point
    return [(2, (0, 0, c)) for c in range(k)] + [(1, (0, c, k)) for c in range(j)] + [(0, (c, j, k)) for c in range(i)]


def marks_met(marks, point):
    return [edge for edge in route(point) if edge in marks]


def inside_points(level, marks):
    """Every point whose route meets an odd number of marks, row by row along x."""
    rows = {}
    for a, (i, j, k) in marks:
        if a == 0:
            rows.setdefault((j, k), set()).add(i)
    inside = set()
    for (j, k), marked in rows.items():
        odd = False
        for i in range(1, level.n + 1):
            odd ^= i - 1 in marked
            if odd:
                inside.add((i, j, k))
    return inside
