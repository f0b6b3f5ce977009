"""Refusals, what is not to be lent, and calls with arguments of any kind: an exception, and nothing is changed."""
import ctypes
import pickle
import random
import struct
from array import array

import omphirun as om

from python_claims import LAMPSHADE, MIDDLE, STL, hold, numpy, raises

FUZZED = 6000


def refused(number, name, place, axis, call, *given):
    fault = raises(om.Refused, call, *given)
    told = (fault.call, fault.number, fault.name, fault.place, fault.axis)
    hold(told == (call.__name__, number, name, place, axis), f"{told} and not {(number, name, place, axis)}")
    hold(isinstance(fault.number, om.Number) and f"{call.__name__} is refused by {number}, {name}" in str(fault), str(fault))
    again = pickle.loads(pickle.dumps(fault))
    hold((again.number, again.place, str(again)) == (fault.number, fault.place, str(fault)), "it can be pickled")


def refusals():
    grid, work, totals = bytearray(125), bytearray(125), array("H", bytes(16))
    good = array("i", [MIDDLE] * 9)
    for call in (om.mark, om.mark_tree, om.mark_all):
        refused(1, "BAD_LEVEL", None, None, call, 6, grid, good, totals)
        refused(2, "SHORT_BUFFER", None, None, call, 2, grid[:-1], good, totals)
        refused(3, "NOT_NINE", None, None, call, 2, grid, good[:-1], totals)
        refused(4, "BELOW_RANGE", 7, 1, call, 2, grid, array("i", [MIDDLE] * 7 + [-1, 0]), totals)
        refused(24, "ABOVE_RANGE", 0, 0, call, 2, grid, array("i", [2 ** 31 - 1] + [-1] * 8), totals)
        refused(5, "NO_GRID", None, None, call, 2, bytearray(b"\1" * 125), good, totals)
        refused(16, "SHORT_TABLE", None, None, call, 2, grid, good, totals[:-1])
    refused(4, "BELOW_RANGE", 9 * 1000 + 5, 2, om.mark_all, 2, grid, good * 1000 + array("i", [MIDDLE] * 5 + [0] * 4), totals)
    nowhere = (ctypes.c_int32 * 0).from_buffer(bytearray(40), 2)  # no memory, and not aligned
    for none in (array("i"), memoryview(good)[:0], nowhere, b""):
        if none != b"":
            om.mark_all(2, grid, none, totals)
    hold(not any(grid), "a point marks nothing, nor do no triangles")
    refused(16, "SHORT_TABLE", None, None, om.open, 2, grid, totals[:-1])
    refused(2, "SHORT_BUFFER", None, None, om.patch, 2, grid, work[:-1], totals)
    refused(7, "SIGNS_MISFIT", None, None, om.surface, 2, bytearray([8]) + bytearray(124), array("H"))
    refused(8, "SHORT_LIST", None, None, om.masks, 2, grid, bytearray(59))
    odd = bytearray(125)
    odd[62] = 1
    refused(6, "ODD_FACE", None, None, om.sign, 2, odd)
    refused(14, "BAD_SCALE", None, None, om.read_stl, STL, 21, array("i"))
    refused(11, "TEXT_FORM", None, None, om.read_stl, b"solid x", 0, array("i"))
    refused(10, "WRONG_LENGTH", None, None, om.read_stl, STL[:-1], 0, array("i"))
    refused(8, "SHORT_LIST", None, None, om.read_stl, STL, 0, array("i", bytes(36)))
    room = array("i", bytes(4 * len(LAMPSHADE)))
    refused(12, "NOT_FINITE", None, 2, om.read_stl, STL[:104] + struct.pack("<f", float("nan")) + STL[108:], 0, room)
    refused(13, "TOO_FAR", None, None, om.read_stl, STL[:104] + struct.pack("<f", 3e9) + STL[108:], 0, room)
    refused(15, "BAD_BOX", None, None, om.any_mark, 2, grid, totals, 3, 0, 0, 2, 4, 4)
    refused(17, "NOT_FOURS", None, None, om.accept, 2, array("H", [0] * 3), grid, work)
    refused(18, "CUT_SHORT", None, None, om.read_job, b"")
    refused(19, "BAD_KIND", None, None, om.write_job, 2, 8, b"", b"", b"", bytearray(99))
    refused(20, "BAD_PLACE", None, None, om.write_job, 2, 1, b"", b"", b"", bytearray(99))


def wrong_memory():
    """What cannot be lent, or not so, raises before the library is called."""
    grid, totals, good = bytearray(125), array("H", bytes(16)), array("i", [MIDDLE] * 9)
    for thing in (None, 1, 2.5, "text", [0] * 125, (), {}, object(), array("d", [0.0] * 125), array("b", bytes(125)), array("H", [0] * 125),
                  (ctypes.c_int8 * 125)(), ctypes.c_void_p(1), memoryview(bytearray(125)).cast("b")):
        raises(TypeError, om.open, 2, thing, totals)
    for thing in (bytearray(36), b"\0" * 36, [MIDDLE] * 9, *(array(code, [MIDDLE] * 9) for code in "Ilqf"),
                  (ctypes.c_int32.__ctype_be__ * 9)(), (ctypes.c_int64 * 9)(), (ctypes.c_float * 9)()):
        raises(TypeError, om.mark_all, 2, grid, thing, totals)
    for thing in (array("h", bytes(16)), bytearray(16), array("I", bytes(32))):
        raises(TypeError, om.open, 2, grid, thing)
    closed = memoryview(bytearray(125))
    closed.release()
    for thing in (bytes(125), memoryview(bytes(125)), memoryview(bytearray(125)).toreadonly(), memoryview(bytearray(250))[::2],
                  memoryview(bytearray(125))[::-1], closed):
        raises((BufferError, ValueError, TypeError), om.open, 2, thing, totals)
    apart = (ctypes.c_int32 * 9).from_buffer(bytearray(40), 2)  # not aligned
    raises(ValueError, om.mark_all, 2, grid, apart, totals)
    raises(ValueError, om.mark, 2, grid, apart, totals)
    raises(ValueError, om.patch, 2, grid, grid, totals)
    both = bytearray(300)
    raises(ValueError, om.patch, 2, memoryview(both)[:125], memoryview(both)[124:249], totals)
    table = memoryview(both)[:16].cast("H")
    raises(ValueError, om.open, 2, memoryview(both), table)
    om.patch(2, memoryview(both)[:125], memoryview(both)[125:250], totals)
    body = bytes(72)
    hold(om.write_job(2, 6, b"", body, body, bytearray(200)) == 20 + 144, "what is only read may overlap")
    for level in (-1, 2 ** 32, 2 ** 32 + 2, 2 ** 64 + 2):
        raises(OverflowError, om.open, level, grid, totals)
    for level in (2.0, "2", None, b"2", grid):
        raises(TypeError, om.open, level, grid, totals)
    for e in (2 ** 31, -2 ** 31 - 1, 2 ** 32):
        raises(OverflowError, om.read_stl, STL, e, good)
    raises(TypeError, om.open, 2, grid)
    raises(TypeError, om.open, 2, grid, totals, 0)
    if numpy:
        wrong_arrays(totals)


def wrong_arrays(totals):
    fixed = numpy.zeros(125, "uint8")
    fixed.flags.writeable = False
    square = numpy.zeros((25, 5), "uint8")
    for thing in (fixed, numpy.zeros(250, "uint8")[::2], square.T, numpy.asfortranarray(numpy.ones((25, 5), "uint8"))):
        raises((BufferError, ValueError), om.open, 2, thing, totals)
    for code in ("int8", "bool", "float64", "uint16", "S1", "O"):
        raises((TypeError, ValueError), om.open, 2, numpy.zeros(125, code), totals)
    for code in ("uint32", "int64", ">i4", "float32"):
        raises((TypeError, ValueError), om.mark_all, 2, bytearray(125), numpy.full(9, MIDDLE, code), totals)
    om.open(2, square, totals)
    om.mark_all(2, square, numpy.full((1, 9), MIDDLE, "<i4"), totals)


def anything(draw):
    """Memory or a number of any kind, mostly wrong."""
    many = draw.choice((0, 1, 8, 9, 84, 124, 125, 126, 729, 36 * 3))
    return draw.choice((
        lambda: draw.choice((0, 1, 2, 3, 5, 6, 2 ** 32 - 1, -1, 2 ** 40, True, None, 1.5, "x")),
        lambda: bytearray(draw.randbytes(many)), lambda: bytearray(many), lambda: draw.randbytes(many),
        lambda: array("i", [draw.choice((MIDDLE, 0, -1, 2 ** 31 - 1, draw.randint(131072, 393215))) for _ in range(many)]),
        lambda: array("H", bytes(2 * many)), lambda: array(draw.choice("bhIqfdB"), bytes(8 * many)),
        lambda: memoryview(bytearray(8 * many)).cast(draw.choice("BHiIhdc")),
        lambda: memoryview(bytearray(2 * many))[draw.randint(0, 3)::draw.choice((1, 2, -1))],
        lambda: (draw.choice((ctypes.c_uint8, ctypes.c_uint16, ctypes.c_int32, ctypes.c_char)) * many)(),
        lambda: numpy.zeros(many, draw.choice(("B", "H", "i", "d", ">H"))) if numpy else bytearray(many)))()


def any_words():
    """Any arguments: a result, a refusal, or an exception of these kinds; the process lives."""
    draw, seen = random.Random(2), set()
    for _ in range(FUZZED):
        call = draw.choice(sorted(om._CALLS))
        wanted = [p for p in om._CALLS[call][1] if p.kind != "count"]
        pool = [anything(draw) for _ in range(3)]
        given = [draw.choice(pool) if draw.random() < 0.4 else right_kind(draw, p) for p in wanted]
        try:
            getattr(om, call)(*given)
            seen.add((call, 0))
        except om.Refused as fault:
            seen.add((call, int(fault.number)))
        except (TypeError, ValueError, BufferError, OverflowError) as fault:
            seen.add((call, type(fault).__name__))
    hold(len(seen) > 60, f"{len(seen)} outcomes were met")


def right_kind(draw, parameter):
    """What the parameter could be, at times too short."""
    if parameter.kind == "number":
        return draw.choice((2, 2, 2, 3, 1, 0))
    many = draw.choice((125, 125, 126, 729, 124, 8, 9, 18, 0))
    return {"uint8_t": bytearray, "uint16_t": lambda n: array("H", bytes(2 * n)), "int32_t": lambda n: array("i", [MIDDLE] * n)}[parameter.c](many)
