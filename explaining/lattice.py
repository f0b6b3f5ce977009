"""The lattice and the grid: levels, points, edges, faces and cells, and their numbers.

An edge is (axis, point), a face is (axis, point), a cell or a point is (i, j, k). Axes are 0, 1, 2 for x, y, z.
"""
from typing import NamedTuple

LATTICE = 1 << 20
MODEL = 524287  # the highest model coordinate
LETTERS = "xyz"
OTHERS = ((1, 2), (0, 2), (0, 1))  # the two other axes, the earlier first
UNITS = ((1, 0, 0), (0, 1, 0), (0, 0, 1))


# ---- from a model's coordinates to the lattice: here and nowhere else

def place(v):
    """Where on the lattice a model coordinate is tested: at an odd number, so never on a grid plane."""
    return 2 * v + 1


def tested_at(c):
    """The model coordinate that is tested at c, an odd number."""
    return (c - 1) // 2


class Level(NamedTuple):
    number: int

    @property
    def n(self):
        """Cells a side."""
        return 1 << self.number

    @property
    def side(self):
        """S, the side of a cell on the lattice."""
        return LATTICE >> self.number

    @property
    def points(self):
        """P, the number of points."""
        return (self.n + 1) ** 3

    @property
    def lowest(self):
        """The lower end of the range for a model coordinate, taken."""
        return self.side // 2

    @property
    def highest(self):
        """The upper end of the range for a model coordinate, taken."""
        return MODEL - self.side // 2

    def point_number(self, p):
        return p[0] + (self.n + 1) * (p[1] + (self.n + 1) * p[2])

    def point_of(self, number):
        row = self.n + 1
        return number % row, number // row % row, number // row // row

    def cell_number(self, cell):
        return cell[0] + self.n * (cell[1] + self.n * cell[2])

    def is_point(self, p):
        return all(0 <= c <= self.n for c in p)

    def is_edge(self, edge):
        a, p = edge
        return self.is_point(p) and p[a] < self.n

    def is_inner(self, edge):
        """Both crosswise coordinates lie in 1..n-1: four cells around it."""
        a, p = edge
        return self.is_edge(edge) and all(1 <= p[b] <= self.n - 1 for b in OTHERS[a])


def step(p, a, by=1):
    """The point or cell next to p along an axis."""
    return tuple(c + by if b == a else c for b, c in enumerate(p))


def ends(edge):
    """The lower and the upper end."""
    a, p = edge
    return p, step(p, a)


def edges_of_face(face):
    """Of face x(i,j,k): y(i,j,k), y(i,j,k+1), z(i,j,k), z(i,j+1,k); likewise for y and z."""
    a, p = face
    b, c = OTHERS[a]
    return (b, p), (b, step(p, c)), (c, p), (c, step(p, b))


def faces_of_edge(edge):
    """The four faces that have the edge."""
    b, p = edge
    first, second = OTHERS[b]
    return (first, p), (first, step(p, second, -1)), (second, p), (second, step(p, first, -1))


def cells_of_face(face):
    """The two cells that it lies between."""
    a, p = face
    return step(p, a, -1), p


def by_number(level):
    """Sorts edges and faces: by rising point number, x before y before z at one point."""
    return lambda item: (level.point_number(item[1]), item[0])


# ---- names

def told(p):
    return f"({p[0]},{p[1]},{p[2]})"


def name(item):
    """x(i,j,k) of an edge or a face."""
    return LETTERS[item[0]] + told(item[1])
