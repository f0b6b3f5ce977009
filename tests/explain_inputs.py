"""Inputs for ./explain, made from the rules: the twelve examples, refused and damaged files, random streams."""
import os
import random
import struct
import sys

ROOT = os.path.dirname(os.path.dirname(os.path.abspath(__file__)))
sys.path.insert(0, os.path.join(ROOT, "explaining"))
from lattice import LETTERS, Level, tested_at  # noqa: E402


def stream(level, *triangles):
    return bytes([level]) + b"".join(struct.pack("<9i", *t) for t in triangles)


def job(level, *bodies):
    """A job file of (kind, bytes) bodies."""
    at, table, rest = 2 + 9 * len(bodies), b"", b""
    for kind, body in bodies:
        table += struct.pack("<BII", kind, at + len(rest), len(body))
        rest += body
    return bytes([level, len(bodies)]) + table + rest


def grid(level, marks, **bytes_at):
    """A grid body: marks such as 'x122', at single-digit coordinates; further bytes by point number."""
    size = Level(level)
    body = bytearray(size.points)
    for mark in marks.split():
        body[size.point_number(tuple(map(int, mark[1:])))] |= 1 << LETTERS.index(mark[0])
    for at, byte in bytes_at.items():
        body[int(at[1:])] = byte
    return bytes(body)


def stl(*triangles, count=None, header=b"made by hand"):
    body = b"".join(bytes(12) + struct.pack("<9f", *t) + bytes(2) for t in triangles)
    return header.ljust(80, b"\0") + struct.pack("<I", len(triangles) if count is None else count) + body


STAR = "x122 x222 y212 y222 z221 z222"  # the marks around point (2,2,2)
TWO = "x122 x322 y212 y312 z221 z222 z321 z322"  # points (2,2,2) and (3,2,2) inside, y(2,2,2) and y(3,2,2) unmarked
LOW, HIGH = Level(2).lowest, Level(2).highest


def near(v):
    """A flat triangle of one place, each coordinate v."""
    return (v,) * 9


TOUCHING = stream(2, (LOW, LOW, LOW, HIGH, HIGH, HIGH, HIGH, HIGH, HIGH))  # through point (2,2,2), whose edges it only touches


def marks_job(marks):
    return job(2, (1, grid(2, marks)))


# The examples of the rules, by number: file name, contents, words for ./explain.
EXAMPLES = [
    ("example_01.job", marks_job(""), ["--all"]),
    ("example_02.job", marks_job(STAR), ["--all"]),
    ("example_03.job", marks_job(STAR.replace("x222 ", "")), ["--all"]),
    ("example_04.job", marks_job("x222"), ["--all"]),
    ("example_05.job", marks_job("x011 x233"), ["--all"]),
    ("example_06.job", marks_job("x222 x233"), ["--all"]),
    ("example_07.job", marks_job(TWO), ["--all"]),
    ("example_08.bin", stream(2, (196608, 200000, 200000, 196608, 350000, 200000, 196608, 200000, 350000)), ["--all"]),
    ("example_08_axis.bin", stream(2, (196608, 200000, 200000, 196608, 350000, 200000, 196608, 200000, 350000)), ["--triangle", "1", "--edge", "x,1,2,2"]),
    ("example_08_apart.bin", stream(2, (196608, 200000, 200000, 196608, 350000, 200000, 196608, 200000, 350000)), ["--triangle", "1", "--edge", "x,1,3,3"]),
    ("example_09.bin", stream(2, near(262144)), ["--all"]),
    ("example_10_lowest.bin", stream(2, near(LOW)), []),
    ("example_10_below.bin", stream(2, near(LOW - 1)), []),
    ("example_10_highest.bin", stream(2, near(HIGH)), []),
    ("example_10_above.bin", stream(2, near(HIGH + 1)), []),
    ("example_11_level.bin", bytes([1]), []),
    ("example_11_coordinate.bin", stream(2, near(0)), []),
    ("example_11_byte.job", job(2, (1, grid(2, "", p0=16))), []),
    ("example_12_sign.job", marks_job(STAR.replace("x222 ", "")), ["--face", "y,2,2,2"]),
    ("example_12_surface.job", marks_job(STAR), ["--edge", "x,1,2,2", "--point", "2,2,2"]),
]

# The x edges of a layer without the middle one: two rims, one within the other, and the middle edge is flipped for both.
CANCELLING = ("cancelling.job", marks_job("x111 x121 x131 x112 x132 x113 x123 x133"), ["--all"])


# All three bodies: the triangle through point (2,2,2), the grid that comes of it with the point's sign, and the rules' six quads.
WHOLE_JOB = job(2, (1, grid(2, STAR, p62=15)), (2, TOUCHING[1:]),
                (3, struct.pack("<24H", 21, 25, 26, 22, 21, 22, 38, 37, 21, 37, 41, 25, 22, 26, 42, 38, 25, 41, 42, 26, 37, 38, 42, 41)))


def wrong():
    """Name, contents, words, status and what the line on standard error has to say."""
    star, point = grid(2, STAR), struct.pack("<9i", *near(LOW + 9))
    finite = (1.0,) * 9
    both = job(2, (1, star), (2, point))
    return [
        ("empty.bin", b"", [], 1, "refused 1:"),
        ("level_6.bin", b"\6", [], 1, "refused 1:"),
        ("unfinished.bin", b"\2" + point + point[:35], [], 1, "refused 3:"),
        ("too_many.bin", b"\2" + point * 100000 + b"\0", [], 1, "refused 9:"),
        ("far.bin", stream(5, near(Level(5).lowest), (LOW,) * 7 + (1 << 30, 0)), [], 1, "refused 24: .* y of corner C of triangle 2 is 1073741824"),
        ("no_e.stl", stl(finite), [], 2, "--e"),
        ("bad_e.stl", stl(finite), ["--e", "21"], 1, "refused 14:"),
        ("bad_level.stl", stl(finite), ["--e", "0", "--level", "6"], 1, "refused 1:"),
        ("text.stl", b"solid cube\n", ["--e", "0"], 1, "refused 11:"),
        ("short.stl", stl(finite, count=2), ["--e", "0"], 1, "refused 10:"),
        ("solid_but_binary.STL", stl(finite, header=b"solid"), ["--e", "0"], 1, "refused 4:"),
        ("nan.stl", stl(finite, (1.0, float("nan"), float("inf")) * 3), ["--e", "0"], 1, "refused 12: y of a vertex of triangle 2"),
        ("far.stl", stl((2.0 ** 31,) * 9), ["--e", "0"], 1, "refused 13:"),
        ("empty.job", b"", [], 1, "refused 18:"),
        ("level_9.job", b"\x09\0", [], 1, "refused 1:"),
        ("cut_short.job", both[:12], [], 1, "refused 18:"),
        ("count_4.job", bytes([2, 4]) + bytes(36), [], 1, "refused 18:"),
        ("kind_0.job", job(2, (0, b"")), [], 1, "refused 19:"),
        ("kinds_turned.job", job(2, (2, point), (1, star)), [], 1, "refused 19:"),
        ("kind_before_offset.job", bytes([2, 1, 9]) + bytes(8), [], 1, "refused 19:"),
        ("behind.job", both + b"\0", [], 1, "refused 20:"),
        ("past_the_end.job", both[:-1], [], 1, "refused 20:"),
        ("lengths.job", job(2, (2, point[:35])), [], 1, "refused 20:"),
        ("outer_mark.job", job(2, (1, grid(2, "x100"))), [], 1, "refused 5:"),
        ("nothing_in_it.job", job(2), [], 2, "nothing to explain"),
        ("far.job", job(2, (2, struct.pack("<9i", *near(HIGH + 1)))), [], 1, "refused 24:"),
        ("right.bin", stream(2), ["--rim", "1"], 2, "no rim 1"),
        ("right.bin", stream(2), ["--triangle", "1"], 2, "no triangle 1"),
        ("right.bin", stream(2), ["--point", "0,0,5"], 2, "no such point"),
        ("right.bin", stream(2), ["--point", "0,0"], 2, "--point"),
        ("right.bin", stream(2), ["--edge", "x,4,1,1"], 2, "no such edge"),
        ("right.bin", stream(2), ["--edge", "w,1,1,1"], 2, "--edge"),
        ("right.bin", stream(2), ["--face", "x,0,1,1"], 2, "no such face"),
        ("right.bin", stream(2), ["--e", "1"], 2, "--e"),
        ("right.bin", stream(2), ["--quads"], 2, "--quads"),
        ("right.bin", stream(2), ["another"], 2, "right.bin"),
        ("right.bin", stream(2), ["--svg", "a.svg"], 2, "--svg"),
        ("right.bin", stream(2), ["--svg", "a.svg", "--layer", "z,5"], 2, "no such layer"),
        ("right.bin", stream(2), ["--page", "no/such/folder.html"], 2, "cannot write"),
        ("right.bin", stream(2), ["--page", "."], 2, "folder"),
    ]


def random_stream(seed):
    """Small triangles, large ones, flat ones, and some whose corners lie on grid planes or beside them."""
    draw = random.Random(seed)
    level = Level(2 + seed % 4)

    def coordinate():
        if draw.random() < 0.4:
            c = level.side * draw.randrange(1, level.n) + draw.choice((-1, 1))
            return min(max(tested_at(c), level.lowest), level.highest)
        return draw.randint(level.lowest, level.highest)

    def triangle():
        if draw.random() < 0.2:
            return tuple(coordinate() for _ in range(3)) * 3
        if draw.random() < 0.5:
            return tuple(coordinate() for _ in range(9))
        middle, reach = [coordinate() for _ in range(3)], level.side
        return tuple(min(max(middle[c % 3] + draw.randint(-reach, reach), level.lowest), level.highest) for c in range(9))
    return stream(level.number, *(triangle() for _ in range(draw.randrange(1, 25))))
