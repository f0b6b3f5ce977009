#!/usr/bin/env python3
"""Tries python/omphirun.py: results, refusals, every kind of memory, and what is not to be lent. A fault ends it, and so would a crash.

usage: tests/python.py     (PYTHONPATH and OMPHIRUN_LIBRARY are set)
"""
import ctypes
import mmap
import os
import random
import re
import subprocess
import sys
import tempfile
import threading
from array import array

import omphirun as om
import words

import python_claims
from python_claims import LAMPSHADE, ROOT, STL, hold, numpy, raises, read
from python_lending import any_words, refusals, wrong_memory

LISTING = [int(word) for line in read("tests", "listings", "lampshade.txt").decode().splitlines()[2:] for word in line.split()[1:]]


# ---- memory of every kind: how many elements of which code, from which numbers


def of_python(code, many):
    return bytearray(many) if code == "B" else array(code, bytes(array(code).itemsize * many))


def of_ctypes(code, many):
    return ({"B": ctypes.c_uint8, "H": ctypes.c_uint16, "i": ctypes.c_int32}[code] * many)()


def of_views(code, many):
    """A part in the middle of other memory, which has to stay."""
    size = array(code).itemsize
    return memoryview(bytearray(size * (many + 16))).cast(code)[8:8 + many]


def of_mmap(code, many):
    return memoryview(mmap.mmap(-1, max(1, array(code).itemsize * many))).cast(code)[:many]


def of_numpy(code, many):
    return numpy.zeros(many, code)


KINDS = [of_python, of_ctypes, of_views, of_mmap] + ([of_numpy] if numpy else [])


def repaired(make, level=5):
    """The lampshade's grid and totals after sign, with what patch told."""
    grid, work, totals, triangles = make("B", om.POINTS(level)), make("B", om.POINTS(level)), make("H", om.TOTALS(level)), make("i", len(LAMPSHADE))
    triangles[:] = array("i", LAMPSHADE) if make is of_python else LAMPSHADE if make in (of_ctypes, of_numpy) else memoryview(array("i", LAMPSHADE))
    om.open(level, grid, totals)
    om.mark_all(level, grid, triangles, totals)
    told = om.patch(level, grid, work, totals)
    hold(not any(bytes(work)), "work bytes are 0")
    om.sign(level, grid)
    return grid, totals, told


def results():
    """The lampshade, by memory of every kind: as the stored listing has it."""
    seen = set()
    for make in KINDS:
        grid, totals, told = repaired(make)
        hold(told == om.Patched(rims=13, flips=20, ones=told.ones, threes=told.threes) and told.ones > 0, f"{make.__name__}: {told}")
        hold(om.totals_true(5, grid, totals) is True and om.any_mark(5, grid, totals, 0, 0, 0, 32, 32, 32) is True, "totals are true")
        hold(om.any_mark(5, grid, totals, 0, 0, 0, 0, 32, 32) is False, "no mark at the outside")
        quads = make("H", om.LIST(5))
        many = om.surface(5, grid, quads)
        hold(many == 3912 and list(array("H", bytes(quads)))[:4 * many] == LISTING, f"{make.__name__}: the listing's quads")
        again, work = make("B", om.POINTS(5)), make("B", om.POINTS(5))
        hold(om.accept(5, memoryview(quads)[:4 * many], again, work) is True and bytes(again) == bytes(grid), "accepted again")
        hold(om.accept(5, memoryview(quads)[4:4 * many], again, work) is False, "and not with a quad less")
        counted = make("H", om.TOTALS(5))
        om.count_totals(5, grid, counted)
        hold(bytes(counted) == bytes(totals), "counted anew")
        file, pictures = make("B", om.STL(5)), make("B", om.MASKS(5))
        written = om.write_stl(5, grid, 0, file)
        hold(written == 84 + 100 * many and om.masks(5, grid, pictures) == om.MASKS(5), "bytes written")
        listed = make("i", 18 * many)
        hold(om.read_stl(memoryview(file)[:written], 0, listed) == 2 * many, "read back")
        job = make("B", 29 + om.POINTS(5) + 8 * many)
        body = bytes(memoryview(quads)[:4 * many])
        hold(om.write_job(5, 5, grid, b"", body, job) == len(job) - 9, "a job with two bodies")
        hold(om.read_job(memoryview(job)[:len(job) - 9]) == om.Job(5, 5, 20, 0, 0, 20 + om.POINTS(5), 8 * many), "is read back")
        seen.add((bytes(grid), bytes(totals), bytes(file), bytes(pictures), told))
    hold(len(seen) == 1, "every kind of memory gives the same")


def marks():
    """Mark, mark_tree and mark_all leave the same, at every level and for arrays of several dimensions."""
    draw = random.Random(1)
    for level in range(2, 6):
        low, high = om.LOWEST(level), om.HIGHEST(level)
        triangles = array("i", [draw.randint(low, high) for _ in range(9 * 12)])
        grids, tables = [bytearray(om.POINTS(level)) for _ in range(4)], [array("H", bytes(2 * om.TOTALS(level))) for _ in range(4)]
        for at in range(0, len(triangles), 9):
            om.mark(level, grids[0], triangles[at:at + 9], tables[0])
            om.mark_tree(level, grids[1], memoryview(triangles)[at:at + 9], tables[1])
        om.mark_all(level, grids[2], triangles, tables[2])
        om.mark_all(level, grids[3], memoryview(triangles).cast("B").cast("i", (12, 3, 3)), tables[3])
        hold(any(grids[0]) and all(grid == grids[0] for grid in grids) and all(table == tables[0] for table in tables), f"level {level}")
        if numpy:
            grid, table = numpy.zeros(om.POINTS(level), "uint8"), numpy.zeros((om.BLOCKS(level),) * 3, "uint16")
            om.mark_all(level, grid, numpy.frombuffer(triangles, "int32").reshape(12, 9), table)
            hold(grid.tobytes() == bytes(grids[0]) and table.tobytes() == tables[0].tobytes(), "numpy's arrays of several dimensions")


def measures():
    """As the header's own table has them, and every measure of the header."""
    table = {om.CELLS: (4, 8, 16, 32), om.POINTS: (125, 729, 4913, 35937), om.SIDE: (262144, 131072, 65536, 32768), om.BLOCKS: (2, 3, 5, 9),
             om.TOTALS: (8, 27, 125, 729), om.LOWEST: (131072, 65536, 32768, 16384), om.HIGHEST: (393215, 458751, 491519, 507903),
             om.EDGES: (108, 1176, 10800, 92256), om.LIST: (432, 4704, 43200, 369024), om.STL: (10884, 117684, 1080084, 9225684),
             om.MASKS: (60, 225, 1020, 5742)}
    header = read("include", "omphirun.h").decode()
    hold(sorted(measure.__name__ for measure in table) == sorted(re.findall(r"#define OMPHIRUN_(\w+)\(level\)", header)), "all of the header")
    for measure, right in table.items():
        hold(tuple(measure(level) for level in range(2, 6)) == right, measure.__name__)
        for level in (1, 6, -1, 2.0, "2", None):
            raises((ValueError, TypeError), measure, level)
    plain = dict(re.findall(r"#define OMPHIRUN_(\w+) (\d+)$", header, re.M))
    hold({name: str(getattr(om, name)) for name in plain} == plain, f"the header's numbers: {plain}")


def header_words():
    """Declarations, words, numbers and version are the header's; each call has its parameters' names."""
    words.main([])
    for name, text, _ in words.declared(read("include", "omphirun.h").decode()):
        call = getattr(om, name)
        _, parameters = om._CALLS[name]
        given = [p.name for p in parameters if p.kind != "count"]
        hold(list(call.__code__.co_varnames[:call.__code__.co_argcount]) == given, f"{name} takes {given}")
        hold(" ".join(call.__doc__.split()) == text, f"{name} has the header's words")


# ---- the rest of what is said


def lent_and_not_copied():
    """The call writes where it was told to, behind it nothing changes, and memory is given back when it ends."""
    memory = bytearray(b"\x55" * 400)
    totals = array("H", [7] * 9)
    om.open(2, memoryview(memory)[100:325], totals)
    hold(memory == b"\x55" * 100 + bytes(125) + b"\x55" * 175 and list(totals) == [0] * 8 + [7], "only the first P bytes are written")
    memory.append(1)
    totals.append(1)
    big = bytearray(40 << 20)
    before = sys.getrefcount(big)
    for _ in range(200):
        om.sign(2, big)
    hold(sys.getrefcount(big) == before, "nothing holds on to it")
    if numpy:
        grid = numpy.full((2, 125), 9, "uint8")
        om.open(2, grid[1], totals)
        hold(not grid[1].any() and (grid[0] == 9).all(), "a row of an array is written in place")


def in_threads():
    """Each thread with buffers of its own."""
    got = []
    threads = [threading.Thread(target=lambda: got.append(bytes(repaired(of_python)[0]))) for _ in range(4)]
    for thread in threads:
        thread.start()
    for thread in threads:
        thread.join()
    hold(len(got) == 4 and len(set(got)) == 1, "all get the same")


def example():
    """examples/plate.py leaves what the calls give, and says which coordinate is out."""
    with tempfile.TemporaryDirectory() as room:
        model, stl, masks = (os.path.join(room, name) for name in ("model.stl", "repaired.stl", "masks.pbm"))
        with open(model, "wb") as file:
            file.write(STL)

        def plate(*given):
            return subprocess.run([sys.executable, os.path.join(ROOT, "examples", "plate.py"), *given], capture_output=True, text=True, timeout=120)

        done = plate(model, "0", stl, masks)
        hold((done.returncode, done.stdout, done.stderr) == (0, "895 triangles, 13 rims closed by 20 flips\n391284 bytes of STL, 33 masks\n", ""), f"{done}")
        grid, _, _ = repaired(of_python)
        file, pictures = bytearray(om.STL(5)), bytearray(om.MASKS(5))
        written = om.write_stl(5, grid, 0, file)
        om.masks(5, grid, pictures)
        hold((read(stl), read(masks)) == (bytes(file[:written]), bytes(pictures)), "the files are those of the calls")
        done = plate(os.path.join(ROOT, "models", "hook.stl"), "3", stl, masks)
        hold(done.returncode == 1 and done.stderr == "plate: x of corner A of triangle 1 is 324, the range is 16384 to 507903\n"
             "plate: mark_all is refused by 4\n", f"{done}")
        for given in ((), (model, "x", stl, masks), (room, "0", stl, masks), (model, "0", room, masks)):
            done = plate(*given)
            hold(done.returncode in (1, 2) and done.stderr.count("\n") == 1 and "Traceback" not in done.stderr, f"{given}: {done}")


def without_library():
    """A library that is not there, or another one, is told by one clear exception."""
    for file in ("/nonexistent/libomphirun.so", "libm.so.6", os.path.join(ROOT, "README.md")):
        done = subprocess.run([sys.executable, "-c", "import omphirun"], env={**os.environ, "OMPHIRUN_LIBRARY": file}, capture_output=True, text=True, timeout=120)
        hold(done.returncode == 1 and f"ImportError: omphirun: {file} cannot be used" in done.stderr and "./install" in done.stderr, f"{done}")


TESTS = (header_words, measures, marks, results, refusals, wrong_memory, any_words, lent_and_not_copied, in_threads, example, without_library)

if __name__ == "__main__":
    for test in TESTS:
        test()
    arrays = f"numpy {numpy.__version__}" if numpy else "numpy is not installed"
    print(f"tests/python: {python_claims.tried} claims hold with the library; Python {sys.version.split()[0]}, {arrays}")
