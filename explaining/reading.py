"""Reads what is to be explained: a stream, a binary STL file or a job file. What the rules refuse is refused here by the same number."""
import struct
from typing import NamedTuple

from faults import Refusal
from lattice import LETTERS, Level, told

MOST_TRIANGLES = 100000
MOST_BYTES = 1 + 36 * MOST_TRIANGLES + 1  # no more of a stream can change the answer
FAR = 1 << 30
GRID, TRIANGLES, QUADS = 1, 2, 3  # kinds of a job's bodies
KIND_NAMES = {GRID: "grid", TRIANGLES: "triangles", QUADS: "quads"}
FIRST_BAD_BYTE = 16  # a grid byte: values 1, 2 and 4 for marks, 8 for a sign


class Case(NamedTuple):
    """Triangles of nine numbers each, or None where a job begins from marks; the bodies of a job by their kind."""
    level: Level
    triangles: list
    marks: set
    bodies: dict


def level_of(number):
    """The level of a number; None is a missing byte."""
    if number not in (2, 3, 4, 5):
        raise Refusal(1, "the level is missing or not 2 to 5", bytes([number]) if number in range(256) else b"")
    return Level(number)


def numbers_of(data):
    return [struct.unpack_from("<9i", data, at) for at in range(0, len(data) - 35, 36)]


def as_stream(level, triangles):
    return bytes([level.number]) + b"".join(struct.pack("<9i", *t) for t in triangles)


def judge(level, triangles, stream, rest):
    """Refuses what mark and the program refuse, in stream order; `rest` says whether bytes of an unfinished triangle follow."""
    for number, triangle in enumerate(triangles[:MOST_TRIANGLES], 1):
        for c, v in enumerate(triangle):
            if not level.lowest <= v <= level.highest:
                side = "below" if v < level.lowest else "above"
                raise Refusal(4 if v < level.lowest else 24, f"a coordinate lies {side} the level's range: {LETTERS[c % 3]} of corner {'ABC'[c // 3]} "
                              f"of triangle {number} is {v}, the range is {level.lowest} to {level.highest}", stream)
    if len(triangles) + rest > MOST_TRIANGLES:
        raise Refusal(9, "there are more than 100,000 triangles", stream)
    if rest:
        raise Refusal(3, "the stream ends within a triangle", stream)


def read_stream(data):
    level = level_of(data[0] if data else None)
    triangles = numbers_of(data[1:])
    judge(level, triangles, data, (len(data) - 1) % 36 != 0)
    return Case(level, triangles, None, {})


# ---- binary STL (M-100)

def rounded(bits, e):
    """A float's bits times 2^e, to the nearest whole number, halves away from zero; None where it is not finite."""
    exponent, digits = bits >> 23 & 255, bits & (1 << 23) - 1
    if exponent == 255:
        return None
    shift = (exponent or 1) - 150 + e
    digits |= (1 << 23) * (exponent > 0)
    size = digits << shift if shift >= 0 else digits + (1 << -shift - 1) >> -shift
    return -size if bits >> 31 else size


def vertex_of(data, at, e, number):
    """The three numbers of a vertex; 12 with the axis of the first that is not finite, otherwise 13."""
    found = [rounded(bits, e) for bits in struct.unpack_from("<3I", data, at)]
    if None in found:
        raise Refusal(12, f"{LETTERS[found.index(None)]} of a vertex of triangle {number} is not finite")
    if any(abs(v) > FAR for v in found):
        raise Refusal(13, f"a coordinate of triangle {number} is beyond 2^30 in size")
    return found


def read_stl(data, e, level_number):
    if not -20 <= e <= 20:
        raise Refusal(14, "e is not -20 to 20")
    if len(data) < 84 or len(data) != 84 + 50 * struct.unpack_from("<I", data, 80)[0]:
        if data[:5] == b"solid":
            raise Refusal(11, "it is the text form of STL: save it as binary STL")
        raise Refusal(10, "the length is not 84 bytes and 50 for each triangle counted")
    triangles = [tuple(v for corner in range(3) for v in vertex_of(data, at + 12 + 12 * corner, e, number))
                 for number, at in enumerate(range(84, len(data), 50), 1)]
    level = level_of(level_number)
    judge(level, triangles, as_stream(level, triangles), False)
    return Case(level, triangles, None, {})


# ---- a job file (M-112)

def contents(data):
    """The table of contents: kind, offset and length of each body."""
    if not data:
        raise Refusal(18, "the job file is empty")
    level = level_of(data[0])
    if len(data) < 2 or data[1] > 3 or len(data) < 2 + 9 * data[1]:
        raise Refusal(18, "the table of contents is cut short, or counts more than 3 bodies")
    return level, [struct.unpack_from("<BII", data, 2 + 9 * body) for body in range(data[1])]


def right_length(level, kind, length):
    return {GRID: length == level.points, TRIANGLES: length % 36 == 0, QUADS: length % 8 == 0}[kind]


def judge_bodies(level, table, end):
    """Kinds first, then places and lengths, then what lies behind the last body."""
    kinds = [kind for kind, _, _ in table]
    if kinds != sorted(set(kinds)) or any(kind not in KIND_NAMES for kind in kinds):
        raise Refusal(19, "a kind of body is unknown, repeated or out of order")
    at = 2 + 9 * len(table)
    for kind, offset, length in table:
        if offset != at or not right_length(level, kind, length):
            raise Refusal(20, f"the offset or the length of the body of {KIND_NAMES[kind]} is wrong")
        at += length
    if at != end:
        raise Refusal(20, "the bodies do not end where the file does")


def marks_of(level, grid):
    """The marks of a grid body; 5 where it is no grid. Signs are passed over."""
    marks = set()
    for number, byte in enumerate(grid):
        p = level.point_of(number)
        edges = [(a, p) for a in range(3) if byte >> a & 1]
        if byte >= FIRST_BAD_BYTE or not all(level.is_inner(edge) for edge in edges):
            raise Refusal(5, f"the job's buffer is no grid: byte {byte} at point {told(p)}")
        marks.update(edges)
    return marks


def read_job(data):
    level, table = contents(data)
    judge_bodies(level, table, len(data))
    bodies = {kind: data[offset:offset + length] for kind, offset, length in table}
    marks = marks_of(level, bodies[GRID]) if GRID in bodies else None
    if TRIANGLES not in bodies:
        return Case(level, None, marks, bodies)
    triangles = numbers_of(bodies[TRIANGLES])
    judge(level, triangles, as_stream(level, triangles[:MOST_TRIANGLES + 1]), False)
    return Case(level, triangles, marks, bodies)
