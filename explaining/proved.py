"""Holds a repair to what the proved program gives for the same input. An account of anything else would mislead, so a difference ends the run.

The program shows its counts, every quad, and by `layers` every sign; the quads name every mark of the patched grid. The marks as they came
it does not show, but it can be asked again, with triangles more that mark single edges from the start. Wherever two grids have the same
patched grid and as many flips, half of the edges in which they differ are flips of the one.

1. Given the edges that were taken away, or given the other marks of this account, it answers as before. All of those given are flips, or none
   is: so it has had each of them, and all that it can have beyond this account are marks more, half of them among the edges added.
2. Given the edges added as well, and those that are added then, until none is, it answers as is worked out here. Each time half of what is
   left of the marks more lies among the edges added then, and is given: so at the end none is left, and there were none before.
"""
import os
import subprocess

from faults import Said, Trouble
from lattice import Level, tested_at, told
from marking import meets_alone
from reading import MOST_TRIANGLES, as_stream
from repairing import MOST_QUADS, repair_marks

SCRIPT = os.path.join(os.path.dirname(os.path.abspath(__file__)), "proved.sh")


class Differs(Trouble):
    def __init__(self, what, here, there):
        super().__init__(f"{what} differ from the proved program's: {here} here, {there} there")


def run_script(words, stream=b"", **channels):
    """Runs the script to its end; a signal ends it first, with what it builds."""
    process = subprocess.Popen([SCRIPT, *words], stdin=subprocess.PIPE, **channels)
    try:
        out, said = process.communicate(stream)
    except BaseException:
        process.terminate()
        process.wait()
        raise
    return process.returncode, out, said


def build():
    """Has the programs made that are missing or older than the crates; meanwhile it says which crate is proved, and what fails."""
    if run_script(["--build"])[0]:
        raise Said()


def ask(program, stream):
    """What a proved program prints of a stream."""
    status, out, said = run_script([program], stream, stdout=subprocess.PIPE, stderr=subprocess.PIPE)
    if status:
        raise Trouble(f"the proved program {program} could not be run: {' '.join(said.decode(errors='replace').split()) or 'no word of why'}")
    return out.decode("ascii", errors="replace")


def hold(what, here, there):
    if here != there:
        raise Differs(what, here, there)


def hold_refusal(refusal):
    """The program refuses by the same number what it can be asked about."""
    if refusal.stream is not None:
        build()
        hold("refusals", f"refused {refusal.number}", (ask("repair", refusal.stream).splitlines() or ["nothing"])[0])


# ---- what the program is to print

def listing_of(level, triangles, repair, cells):
    """The lines that the program is to print; `cells` gives a cell's number."""
    if len(repair.quads) > MOST_QUADS:
        return ["refused 8"]
    counts = f"rims {len(repair.rims)} flips {len(repair.flips)} inside {len(repair.inside)} quads {len(repair.quads)}"
    return [f"level {level.number} triangles {triangles}", counts,
            *("q " + " ".join(str(cells(cell)) for cell in quad) for _, quad in repair.quads)]


def hold_listing(level, stream, repair, cells):
    mine = listing_of(level, (len(stream) - 1) // 36, repair, cells)
    its = ask("repair", stream).splitlines()
    for words, here, there in zip(("the levels and triangles", "the counts"), mine, its):
        hold(words, here, there)
    hold("the numbers of quads listed", len(mine), len(its))
    for number, (here, there) in enumerate(zip(mine[2:], its[2:]), 1):
        hold(f"the cells of quad {number}", here, there)


def hold_layers(level, stream, repair, inside):
    """Every point's sign: a row for each y, a block for each z, blank lines between; behind them the faces with one mark and with three."""
    *rows, faces = [line for line in ask("layers", stream).splitlines() if line] or [""]
    odd = repair.odd()
    hold("the numbers of gaps and membranes", f"ones {len(repair.gaps(odd))} threes {len(repair.membranes(odd))}", faces)
    side = range(level.n + 1)
    mine = ["".join("#" if (i, j, k) in inside else "." for i in side) for k in side for j in side]
    hold("the numbers of rows of points", len(mine), len(rows))
    for at, (here, there) in enumerate(zip(mine, rows)):
        if here != there:
            i = next(c for c in side if here[c:c + 1] != there[c:c + 1])
            hold(f"the signs of point {told((i, at % (level.n + 1), at // (level.n + 1)))}", here[i], there[i:i + 1])


# ---- marks as triangles

def can_be_asked(level, edge):
    """Whether a triangle can meet this edge alone: not in the outermost cells, which the range keeps clear of."""
    return all(level.lowest <= tested_at(c) <= level.highest for c in meets_alone(level, edge))


def as_triangles(level, edges):
    return [tuple(tested_at(c) for c in meets_alone(level, edge)) for edge in sorted(edges)]


def moved(edge, by):
    a, p = edge
    return a, tuple(c + by for c in p)


def grid_to_ask(level, marks):
    """Where the marks can be asked for by triangles: here, or one cell further in on the next level; nothing on the last."""
    if all(can_be_asked(level, edge) for edge in marks):
        return level, 0
    return (Level(level.number + 1), 1) if level.number < 5 else None


# ---- the comparison

ALIKE = "rims, gaps and membranes, flips, points inside, every quad and so every mark of the patched grid, and the sign of every point"


class CannotAsk(Exception):
    """No stream has these marks, or the program would not show what comes of them."""


def hold_given(case, repair, edges):
    """The program's answer when it is given edges from the start, which come to this repair."""
    triangles = case.triangles + as_triangles(case.level, edges)
    if not all(can_be_asked(case.level, edge) for edge in edges) or len(triangles) > MOST_TRIANGLES or len(repair.quads) > MOST_QUADS:
        raise CannotAsk()
    hold_listing(case.level, as_stream(case.level, triangles), repair, case.level.cell_number)


def hold_marks(case, repair):
    """The marks as they came, by further questions; in words, what they settle."""
    marks, taken = set(repair.marks), repair.taken()
    if not repair.flips:
        return "No edge is flipped, so the marks as they came are those of the patched grid."
    try:
        for edges in filter(None, (taken, marks - taken)):
            hold_given(case, repair, edges)
        given, again = set(), repair
        while again.added():
            given |= again.added()
            again = repair_marks(case.level, marks | given)
            hold_given(case, again, given)
    except CannotAsk:
        return "The marks as they came are compared through the numbers of rims and flips alone: more cannot be asked of it here."
    return "Asked again with edges marked from the start it answers as is worked out here, which leaves no other marks as they came."


def hold_triangles(case, repair):
    stream = as_stream(case.level, case.triangles)
    hold_listing(case.level, stream, repair, case.level.cell_number)
    hold_layers(case.level, stream, repair, repair.inside)
    return [f"Compared with the proved program: {ALIKE}; all the same.", hold_marks(case, repair)]


def hold_grid(case, repair):
    """The marks of a job's grid become triangles, one a mark; what comes back is moved back."""
    place = grid_to_ask(case.level, repair.marks)
    if place is None:
        return ["Not compared with the proved program: it takes triangles only, and none reaches a mark in the outermost cells."]
    level, by = place
    stream = as_stream(level, as_triangles(level, [moved(edge, by) for edge in repair.marks]))
    hold_listing(level, stream, repair, lambda cell: level.cell_number(tuple(c + by for c in cell)))
    hold_layers(level, stream, repair, {tuple(c + by for c in p) for p in repair.inside})
    where = f", one cell further in on level {level.number}" if by else ""
    return [f"Compared with the proved program, which got a triangle for each mark{where}: {ALIKE}; all the same."]


def compare(case, repair):
    """The lines that say what was compared; a difference is raised."""
    build()
    return hold_grid(case, repair) if case.triangles is None else hold_triangles(case, repair)
