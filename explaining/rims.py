"""Odd faces and rims: a face is odd when it has one or three marks; odd faces that a chain through cells joins are one rim."""
from typing import NamedTuple

from lattice import by_number, cells_of_face, faces_of_edge


class Box(NamedTuple):
    """Cells from low up to high, high not among them."""
    low: tuple
    high: tuple

    @property
    def sides(self):
        return tuple(h - l for l, h in zip(self.low, self.high))

    def has_cell(self, cell):
        return all(l <= c < h for l, c, h in zip(self.low, cell, self.high))

    def has_face(self, face):
        """Both cells of the face lie in the box."""
        return all(self.has_cell(cell) for cell in cells_of_face(face))


def count_marks(marks):
    """For each face with marks, how many of its four edges are marked."""
    counts = {}
    for edge in marks:
        for face in faces_of_edge(edge):
            counts[face] = counts.get(face, 0) + 1
    return counts


def odd_faces(counts):
    return {face for face, many in counts.items() if many % 2}


def box_of(faces):
    """The smallest box of cells that holds both cells of each face."""
    cells = [cell for face in faces for cell in cells_of_face(face)]
    return Box(tuple(min(c) for c in zip(*cells)), tuple(max(c) + 1 for c in zip(*cells)))


def find_rims(level, odd):
    """The rims, each as its faces by rising point number; in the order of their first faces."""
    at_cell = {}
    for face in odd:
        for cell in cells_of_face(face):
            at_cell.setdefault(cell, []).append(face)
    order = by_number(level)
    seen, rims = set(), []
    for first in sorted(odd, key=order):
        if first in seen:
            continue
        seen.add(first)
        rim = [first]
        for face in rim:  # which grows meanwhile
            for cell in cells_of_face(face):
                for other in at_cell[cell]:
                    if other not in seen:
                        seen.add(other)
                        rim.append(other)
        rims.append(sorted(rim, key=order))
    return rims
