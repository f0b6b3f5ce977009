#!/usr/bin/env python3
"""Writes STL files of every kind for the program `plate`, valid, damaged and hostile, and the words that each is tried with.

usage: tests/plate_inputs.py FOLDER     (writes NAME.stl files, and `list`: a line NAME, a tab and a word for each run)
"""
import math
import os
import random
import struct
import sys

ROOT = os.path.dirname(os.path.dirname(os.path.abspath(__file__)))
sys.path.insert(0, os.path.join(ROOT, "models"))
import make  # noqa: E402

MOST = 3.4028234663852886e38  # the largest float
LEVELS = (2, 3, 4, 5)
draw = random.Random(26)


def words(level, e, wants="rj"):
    """Fitted, with e in the middle, and kept where it is."""
    return [f"{level}f00{w}" for w in wants] + [f"{level}{mode}{e + 20:02}{w}" for mode in "ck" for w in wants]


def head(count, header=b""):
    return header.ljust(80, b"\x55") + struct.pack("<I", count)


def record(nine, normal=(0.0, 0.0, 0.0), last=0):
    return struct.pack("<12f", *normal, *nine) + struct.pack("<H", last)


def stl(facets):
    """The normals and the last bytes hold what has to be passed over."""
    return head(len(facets)) + b"".join(record(f, (math.nan, MOST, -MOST), 65535) for f in facets)


def single(x):
    return struct.unpack("<f", struct.pack("<f", x))[0]


def after(x, steps=1):
    """The float so many steps away from zero."""
    return struct.unpack("<f", struct.pack("<I", struct.unpack("<I", struct.pack("<f", x))[0] + steps))[0]


def box(low, high):
    return [sum(t, ()) for t in make.box(low, high)]


def span(low, high, axis=0):
    """One triangle from low to high on an axis, at 0 on the others."""
    corners = [[0.0] * 3 for _ in range(3)]
    corners[0][axis], corners[1][axis], corners[2][axis] = low, high, low
    return [tuple(c for corner in corners for c in corner)]


def widest(level):
    return 524287 - (1 << (20 - level))


def samples():
    """The sample models as an owner has them: in units of his own, away from the middle, some of them damaged."""
    for name, (_, triangles, _) in make.MODELS.items():
        unit, off = draw.choice((1.0, 0.3, 25.4, 1000.0, 2.0 ** -12)), [draw.uniform(-50, 50) for _ in range(3)]
        facets = [tuple(unit * (c + off[k]) for corner in t for k, c in enumerate(corner)) for t in triangles()]
        for level in (2, 5):
            yield f"sample_{name}_{level}", stl(facets), words(level, draw.randrange(-3, 12))
    for name in ("hook", "hook_text"):
        with open(os.path.join(ROOT, "models", name + ".stl"), "rb") as file:
            yield name, file.read(), [w for level in LEVELS for w in words(level, 13)] + ["5c34r", "5c35r", "5k14j"]


def soups():
    """Random triangles of every size and place."""
    for k in range(48):
        many, level = draw.choice((1, 1, 2, 3, 5, 10, 30, 100, 300)), draw.choice(LEVELS)
        size, off = 2.0 ** draw.uniform(-45, 45), [draw.choice((0.0, 1.0, -30.0, 5e4)) for _ in range(3)]
        width = draw.choice((1.0, 0.1, 0.01))
        facets = []
        for _ in range(many):
            centre = [draw.uniform(-1, 1) for _ in range(3)]
            facets.append(tuple(single(size * (c + draw.uniform(-width, width) + off[a])) for _ in range(3) for a, c in enumerate(centre)))
        e = max(-20, min(20, math.floor(18 - math.log2(size))))
        more = [f"{level}c{max(e - 5, -20) + 20:02}r", f"{level}k{draw.randrange(41):02}j"]
        yield f"soup_{k:02}", stl(facets), words(level, e, "r" if k % 3 else "rj") + more
    for k in range(20):  # as a caller has placed them
        level, e = draw.choice(LEVELS), draw.randrange(-20, 21)
        low, high = 1 << (19 - level), 524287 - (1 << (19 - level))
        facets = [tuple(single(math.ldexp(draw.uniform(low, high), -e)) for _ in range(9)) for _ in range(draw.randrange(1, 40))]
        yield f"placed_{k:02}", stl(facets), words(level, e, "rj" if k % 2 else "r")


def counts():
    """Files that end before, at and behind the ends of blocks of many sizes."""
    facets = [tuple(draw.uniform(0, 9) for _ in range(9)) for _ in range(2700)]
    for many in (0, 1, 2, 8, 9, 10, 11, 79, 80, 81, 82, 83, 161, 162, 163, 164, 165, 326, 327, 328, 653, 654, 655, 656, 1308, 1309, 1310, 1311, 2619,
                 2620, 2621, 2622):
        yield f"count_{many:04}", stl(facets[:many]), ["2f00r", "2f00j", "2k20j"]


def cut_and_damaged():
    """Wrong lengths, wrong counts, the text form, and bytes that came out otherwise."""
    whole = stl(box((1, 1, 1), (9, 8, 7)))
    for many in (0, 1, 4, 5, 6, 79, 80, 83, 84, 85, 133, 134, 135, len(whole) - 50, len(whole) - 1):
        yield f"cut_{many:04}", whole[:many], ["5f00r", "3k20j"]
        yield f"cut_solid_{many:04}", (b"solid" + whole[5:])[:many], ["5f00r"]
    for name, data in (("behind", whole + b"\0"), ("whole_behind", whole + whole[84:134]), ("solid_right_length", b"solid" + whole[5:]),
                       ("solid_no_triangle", head(0, b"solid")),
                       ("count_0", whole[:80] + bytes(4) + whole[84:]), ("count_11", whole[:80] + b"\x0b\0\0\0" + whole[84:]),
                       ("count_13", whole[:80] + b"\x0d\0\0\0" + whole[84:]),
                       ("count_huge", whole[:80] + b"\xff" * 4 + whole[84:]), ("count_in_32_bits", whole[:80] + struct.pack("<I", 12 + (1 << 31)) + whole[84:]),
                       ("soli", b"soli" + bytes(80)), ("Solid", b"Solid" + bytes(90)), ("text", b"solid cube\nendsolid cube\n"), ("text_short", b"solid")):
        yield name, data, ["5f00r", "5f00j", "4c21r", "2k38r"]
    for k in range(25):
        at, data = draw.randrange(84, len(whole)), bytearray(whole)
        data[at] ^= 1 << draw.randrange(8)
        yield f"flipped_{k:02}", bytes(data), [f"{draw.choice(LEVELS)}f00r"]


def not_finite():
    """A NaN or an infinity at each place, in the first and in the last triangle; beside coordinates that are refused for another reason."""
    for place in range(9):
        for k, bits in enumerate((0xFF800000, 0x7F800001) if place % 2 else (0x7F800000, 0xFFFFFFFF)):
            facets = [record((1.0,) * 9), record((2.0,) * 9), record((3.0,) * 9)]
            which = (place + k) % 3
            at = 12 + 4 * place
            facets[which] = facets[which][:at] + struct.pack("<I", bits) + facets[which][at + 4:]
            yield f"not_finite_{place}_{k}", head(3) + b"".join(facets), ["5f00r"] + (["5k40j", "2c00r"] if place == 4 else [])
    yield "far_before_not_finite", head(2) + record((1e20,) * 9) + record((math.nan,) * 9), ["5f00r", "5k20r", "5k20j", "5c20r"]


def far_and_low():
    """With k: the first refused step in file order, 13 by vertices, then 4 or 24 by the nine coordinates."""
    good, low, high, far = 262144.0, 100.0, 520000.0, 2.0 ** 31
    for k, row in enumerate(([low, high], [high, low], [far, low], [low, far], [good, far, low], [good] * 8 + [low], [good] * 8 + [high],
                             [good] * 8 + [far], [low] + [good] * 7 + [far])):
        facets = [tuple((row + [good] * 9)[:9])]
        yield f"order_{k}", stl(facets), ["5k20r", "5k20j"]
        yield f"order_later_{k}", stl([(good,) * 9] + facets + [(far,) * 9]), ["3k20r", "3k20j"]
    for level in LEVELS:
        first, last = float(1 << (19 - level)), 524287.0 - (1 << (19 - level))
        for k, c in enumerate((first, first - 1, first - 0.5, first - 0.4375, after(first - 1, -1), last, last + 1, last + 0.4375, last + 0.5)):
            yield f"range_{level}_{k}", stl([(good,) * 8 + (c,)]), [f"{level}k20r", f"{level}c20j"]


def limits_of_e():
    """Extents at the widest that fits, and one more, at each of some powers; halves on both sides; results at 2^30."""
    for level in LEVELS:
        for e in (20, 19, 1, 0, -1, -20) if level == 3 else (20, 0, -20):
            w = widest(level)
            for k, (low, high) in enumerate(((0, w), (0, w + 1), (-w, 0), (-w - 1, 0), (-0.5, w - 1), (-0.5, w), (-0.4375, w), (0.5, w + 0.5),
                                             (0.5, w + 1), (0, w + 0.4375))):
                axis = (level + k) % 3
                facets = span(math.ldexp(low, -e), math.ldexp(high, -e), axis)
                yield f"widest_{level}_{e}_{k}", stl(facets), [f"{level}f00j"] + ([f"{level}c{e + 20:02}r"] if k < 3 else [])
    for e in (20, 10, 0, -20):
        for k, number in enumerate((2.0 ** 30, after(2.0 ** 30), 2.0 ** 30 - 64, -2.0 ** 30, -after(2.0 ** 30), 2.0 ** 31)):
            x = math.ldexp(number, -e)
            yield f"near_{e}_{k}", stl([(x,) * 9]), ["5f00r", f"5c{e + 20:02}r", f"5k{e + 20:02}r"]


def extremes():
    """One point, nothing but zeros, the smallest and the largest floats."""
    tiny = 2.0 ** -149
    cases = {"zeros": [(0.0,) * 9], "minus_zeros": [(-0.0,) * 9], "both_zeros": [(0.0, -0.0, 0.0) * 3], "point": [(1.25, -7.5, 3.0) * 3],
             "points": [(1.0,) * 9, (2.0,) * 9],
             "denormals": [(tiny, -tiny, 5 * tiny) * 3, (2.0 ** -127,) * 9], "minus_tiny": [(-tiny,) * 9, (0.0,) * 9], "largest": [(MOST,) * 9],
             "both_largest": [(MOST, -MOST, 0.0) * 3],
             "e30": [(1e30,) * 9], "e30_wide": [(1e30, 0.0, 0.0) * 3], "one_wide": [(0.0,) * 8 + (1e12,)], "e11": [(0.0,) * 8 + (5e11,)],
             "e15": [(1e15, 2e15, 1e3) * 3],
             "one_axis": span(0.0, 1.0, 1), "halves": [(0.5, -0.5, 1.5, 2.5, -1.5, -2.5, 0.25, 0.75, -0.25)], "fractions": [tuple(k / 3 for k in range(9))]}
    for name, facets in cases.items():
        yield name, stl(facets), [f"{level}f00{w}" for level in (2, 5) for w in "rj"] + [f"5{mode}{e + 20:02}r" for mode in "ck" for e in (-20, 0, 20)]


def far_boxes():
    """Boxes far from 0, so that the way back is rounded: exactly where a float holds the number, to the nearest elsewhere."""
    for k in range(24):
        e = draw.choice((-20, -3, 0, 7, 20))
        off = [draw.choice((-1, 1)) * draw.choice((0, 2 ** 20, 2 ** 23 + 5, 2 ** 24 - 3, 2 ** 24 + 6, 2 ** 26, 2 ** 28, 2 ** 30 - 2 ** 20)) for _ in range(3)]
        sizes = [draw.randrange(100000, 400000) for _ in range(3)]
        low = [math.ldexp(o, -e) for o in off]
        high = [math.ldexp(o + s, -e) for o, s in zip(off, sizes)]
        yield f"far_box_{k:02}", stl(box(low, high)), [f"{draw.choice(LEVELS)}f00r", f"5c{e + 20:02}r"]


def lines_through(points):
    """A short line through each of these points of level 5, and the ends of the level's range."""
    half = 1 << 14
    ends = [(half,) * 9, (524287 - half,) * 9]
    return stl(ends + [tuple(half * c - 1 for c in p) + tuple(half * c for c in p) * 2 for p in points])


def many_quads():
    """As many quads as the list holds, which six a point and ten a pair come to, and two more."""
    def points(pairs, singles):
        some = [(i, j, k) for k in range(2, 31) for j in range(2, 31) for i in range(2, 31) if (i + j + k) % 2 == 0]
        joined = [(2, 2 + 4 * n, 2) for n in range(pairs)]
        apart = [p for p in some if p[1] > 10 or p[2] > 4]
        return [q for p in joined for q in (p, (p[0] + 1, p[1], p[2]))] + apart[:singles]
    yield "quads_32768", lines_through(points(2, 5458)), ["5f00r", "5f00j"]
    yield "quads_32770", lines_through(points(1, 5460)), ["5f00r", "5f00j"]


def many_triangles():
    """More than a stream has: a job holds as many as its offsets can tell."""
    facets = box((1, 1, 1), (9, 8, 7)) * 8500
    yield "triangles_102000", stl(facets), ["2f00r", "2f00j"]
    yield "triangles_100001", stl(facets[:100001]), ["3k20j", "3c20j"]


def bad_words():
    facets = stl(box((1, 1, 1), (9, 8, 7)))
    bad = ["", "5", "5f00", "5f000r", "5f00rr", "1f00r", "6f00r", "0f00r", "af00r", "5F00r", "5x00r", "5f00R", "5f00x", "5c41r", "5c99r", "5c-1r",
           "5c0ar", "5ca0r", "5c 0r", "5k/0r", "5k0:r",
           "5k41j", "5c..r", "5k4r", " 5f00r", "5f00r ", "rf005", "f500r", "5fzzr", "5f41j", "5f-1r", "5f00s", "5k20s", "5f00J", "5f00i", "5f00k"]
    good = ["5f40r", "5f09j", "5c40r", "5c00r", "5k00r", "5k40j", "2c38r"]
    yield "words", facets, bad + good
    yield "words_no_file", b"", ["5x00r", "5f00r"]


def main(folder):
    with open(os.path.join(folder, "list"), "w") as listed:
        for kind in (samples, soups, counts, cut_and_damaged, not_finite, far_and_low, limits_of_e, extremes, far_boxes, many_quads, many_triangles, bad_words):
            for name, data, tried in kind():
                with open(os.path.join(folder, name + ".stl"), "wb") as file:
                    file.write(data)
                listed.writelines(f"{name}\t{word}\n" for word in tried)


if __name__ == "__main__":
    if len(sys.argv) != 2 or not os.path.isdir(sys.argv[1]):
        sys.exit("usage: tests/plate_inputs.py FOLDER")
    main(sys.argv[1])
