"""Quads: one for each marked edge, by rising point number, x before y before z at one point."""
from lattice import by_number, step

PAIRS = ((1, 2), (2, 0), (0, 1))  # the cells of an x edge are named in (y,z), of a y edge in (z,x), of a z edge in (x,y)


def cells_around(edge):
    """The four cells of an edge in the order for a lower end inside."""
    a, p = edge
    b, c = PAIRS[a]
    both = step(step(p, b, -1), c, -1)
    return both, step(p, c, -1), p, step(p, b, -1)


def quad(edge, inside):
    """The cells in order: as they are when the lower end is inside, otherwise first, fourth, third, second."""
    one, two, three, four = cells_around(edge)
    return (one, two, three, four) if edge[1] in inside else (one, four, three, two)


def all_quads(level, marks, inside):
    """Each marked edge with its quad, in the order of the listing."""
    return [(edge, quad(edge, inside)) for edge in sorted(marks, key=by_number(level))]
