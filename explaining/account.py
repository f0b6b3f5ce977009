"""The account of a repair, in the words of the rules, as lines that can be followed with a pencil."""
import struct

from lattice import LETTERS, by_number, cells_of_face, edges_of_face, ends, faces_of_edge, name, told
from marking import apart, corners, edges_met, spans
from quads import cells_around
from reading import GRID, KIND_NAMES, QUADS
from signs import marks_met

GAP, MEMBRANE = "gap", "membrane"
MOST_TOLD = 8  # triangles named for one edge, flips named in a rim's line


def many(number, word):
    return f"{number} {word if number == 1 else word + 's'}"


def some(names):
    """The first few names, and how many more there are."""
    shown = ", ".join(names[:MOST_TOLD])
    return shown + (f" and {len(names) - MOST_TOLD} more" if len(names) > MOST_TOLD else "")


def names(level, items):
    return [name(item) for item in sorted(items, key=by_number(level))]


def kinds(repair, faces):
    """How many gaps, with one mark, and membranes, with three."""
    return f"{many(len(repair.gaps(faces)), GAP)}, {many(len(repair.membranes(faces)), MEMBRANE)}"


def box_words(box):
    return f"cells {told(box.low)} to {told(tuple(h - 1 for h in box.high))}"


def signed_flips(repair, flips):
    """+ for a mark added, - for one taken away, = for a flip that another rim takes back."""
    def sign(edge):
        return "=" if edge not in repair.flips else "-" if edge in repair.marks else "+"
    return [sign(edge) + name(edge) for edge in sorted(flips, key=by_number(repair.level))]


# ---- the whole case

def heading(title, case):
    level = case.level
    came = f"{many(len(case.triangles), 'triangle')}" if case.triangles is not None else "marks, from a job's grid"
    return [f"{title}: level {level.number}, {level.n} cells a side, each of side S = {level.side}; {came}"]


def rim_line(repair, rim):
    flips = f": {some(signed_flips(repair, rim.flips))}" if rim.flips else ""
    return f"  rim {rim.number}: {kinds(repair, rim.faces)}; box {box_words(rim.box)}; {many(len(rim.flips), 'flip')}{flips}"


def short(repair):
    """Short: the counts, and a line a rim."""
    odd = repair.odd()
    lines = [f"Marks: {many(len(repair.marks), 'edge')}.",
             f"Odd faces: {len(odd)} ({kinds(repair, odd)})" + (", so that sign would refuse the grid as it came by 6." if odd else "."),
             f"Rims: {len(repair.rims)}" + (":" if repair.rims else ".")]
    lines += [rim_line(repair, rim) for rim in repair.rims]
    lines += [f"Flips: {len(repair.flips)}, {len(repair.added())} added and {len(repair.taken())} taken away.", *cancelling(repair),
              f"Inside: {len(repair.inside)} of {repair.level.points} points.",
              f"Quads: {len(repair.quads)}, a list of {4 * len(repair.quads)} numbers"
              + ("; surface would refuse a shorter one by 8." if repair.quads else ".")]
    return lines


def cancelling(repair):
    """The flips that cancel between rims."""
    lines = []
    for edge in sorted(repair.cancelled(), key=by_number(repair.level)):
        rims = [str(rim.number) for rim in repair.rims if edge in rim.flips]
        lines.append(f"  {name(edge)} is flipped for rims {' and '.join(rims)}, which is no flip: its mark is as it was.")
    return lines


def whole(case, repair):
    """Everything: each triangle's marks, each rim with its cuts, the layers of points, every quad."""
    lines = short(repair)
    for number in range(1, len(case.triangles or []) + 1):
        lines += ["", *triangle(case, number)]
    for rim in repair.rims:
        lines += ["", *rim_account(repair, rim)]
    for k in range(repair.level.n + 1):
        lines += layer(repair, k)
    if repair.quads:
        lines += ["", "Quads, by rising point number of their edges:"]
        lines += [f"  {name(edge)}: {quad_line(repair, cells)}" for edge, cells in repair.quads]
    return lines


def layer(repair, k):
    """A layer of points, # inside and . outside, a row for each y; nothing where all are outside."""
    side = range(repair.level.n + 1)
    if not any((i, j, k) in repair.inside for j in side for i in side):
        return []
    return ["", f"Points of layer z = {k}, x to the right, y downward:",
            *("  " + "".join("#" if (i, j, k) in repair.inside else "." for i in side) for j in side)]


# ---- a triangle

def triangle(case, number):
    numbers = case.triangles[number - 1]
    abc = " ".join(f"{letter} {told(numbers[3 * c:3 * c + 3])}" for c, letter in enumerate("ABC"))
    met = edges_met(case.level, numbers)
    return [f"Triangle {number}: {abc}",
            f"  meets {many(len(met), 'edge')}" + (": " + ", ".join(names(case.level, met)) if met else "") + "."]


def triangle_and_edge(case, number, edge):
    """The axis that separates them, or that none does: every span on the way."""
    numbers = case.triangles[number - 1]
    abc, line = corners(numbers), ends(edge)
    lines = [f"Triangle {number} and edge {name(edge)}, on the lattice, where v is tested at 2v+1:",
             "  " + ", ".join(f"{letter} = {told(corner)}" for letter, corner in zip("ABC", abc)),
             "  the edge from " + " to ".join(told(tuple(case.level.side * c for c in p)) for p in line)]
    for word, axis, one, other in spans(case.level, numbers, edge):
        zero = " (a zero axis never separates)" if axis == (0, 0, 0) else ""
        lines.append(f"  axis {word} = {told(axis)}: triangle {one[0]} to {one[1]}, edge {other[0]} to {other[1]}{zero}")
        if apart(one, other):
            before = "triangle's span ends before the edge's" if one[1] < other[0] else "edge's span ends before the triangle's"
            return lines + [f"  It separates: the {before} begins. The edge is not met."]
    return lines + ["  None of the thirteen axes separates: the edge is met."]


# ---- a rim

def rim_account(repair, rim):
    """Faces, box, each cut: axis, plane, the faces listed, the pairs, each path and its flips."""
    lines = [f"Rim {rim.number}: {many(len(rim.faces), 'odd face')}, {kinds(repair, rim.faces)}."]
    lines += [f"  {GAP if repair.counts[face] == 1 else MEMBRANE} {face_words(face)}, marked: {', '.join(marked_of(repair, face))}" for face in rim.faces]
    lines.append(f"  Box: {box_words(rim.box)}.")
    for cut in rim.cuts:
        lines += cut_account(cut)
    lines.append("  Boxes of one cell, and those without working faces, give nothing.")
    net = ", ".join(signed_flips(repair, rim.flips)) or "none"
    lines.append(f"  Flips of the rim, those made twice left out: {net}.")
    return lines


def face_words(face):
    low, high = cells_of_face(face)
    return f"face {name(face)} between cells {told(low)} and {told(high)}"


def marked_of(repair, face):
    return [name(edge) for edge in edges_of_face(face) if edge in repair.marks]


def cut_account(cut):
    listed = ", ".join(name(face) for face in cut.faces) or "none"
    lines = [f"  Cut {box_words(cut.box)}, sides {' x '.join(map(str, cut.box.sides))}: {LETTERS[cut.axis]} at plane {cut.plane}; faces listed: {listed}."]
    for joined in cut.paths:
        lines.append(f"    Pair {name(joined.first)} with {name(joined.second)}: the path flips {', '.join(map(name, joined.flips))}.")
        lines += [f"      {name(e)} reverses faces {', '.join(map(name, faces_of_edge(e)))}." for e in joined.flips]
    return lines


# ---- a point, an edge, a face

def side_of(repair, point):
    return "inside" if point in repair.inside else "outside"


def point(repair, p):
    i, j, k = p
    met = marks_met(repair.patched, p)
    parity = "odd" if len(met) % 2 else "even"
    return [f"Point {told(p)}, number {repair.level.point_number(p)}: {side_of(repair, p)}.",
            f"  Route: from (0,0,0), which is outside, along z to (0,0,{k}), along y to (0,{j},{k}), along x to {told(p)}.",
            f"  Marks met: {', '.join(map(name, met)) or 'none'}; {len(met)} is {parity}, so the point is {side_of(repair, p)}."]


def edge(case, repair, e):
    level = repair.level
    if not level.is_inner(e):
        return [f"Edge {name(e)}: not inner, since a crosswise coordinate is 0 or {level.n}; it is never marked and has no quad."]
    lines = [f"Edge {name(e)}, from point {told(ends(e)[0])} to point {told(ends(e)[1])}: {'marked' if e in repair.patched else 'not marked'}."]
    return lines + [f"  {text}" for text in (came(case, repair, e), flipped(repair, e), ends_line(repair, e), quad_words(repair, e))]


def came(case, repair, e):
    if e not in repair.marks:
        return "As it came: not marked."
    if case.triangles is None:
        return "As it came: marked, in the job's grid."
    found = repair.marks[e]
    return f"As it came: marked, met by triangle{'s' if len(found) > 1 else ''} {some([str(number) for number in found])}."


def flip_words(repair):
    """For each edge that a path flips: for which rims, at which cuts, and what is left of it."""
    found = {}
    for rim in repair.rims:
        for cut in rim.cuts:
            for joined in cut.paths:
                for e in joined.flips:
                    found.setdefault(e, []).append(f"for rim {rim.number} in the cut of {LETTERS[cut.axis]} at plane {cut.plane}")
    added, taken = repair.added(), repair.taken()
    return {e: f"Flips: {', '.join(lines)}; the mark is {'taken away' if e in taken else 'added' if e in added else 'as it was'}."
            for e, lines in found.items()}


def flipped(repair, e):
    return flip_words(repair).get(e, "Flips: none.")


def ends_line(repair, e):
    low, high = ends(e)
    return f"Signs: {told(low)} {side_of(repair, low)}, {told(high)} {side_of(repair, high)}."


def quad_line(repair, cells):
    return "q " + " ".join(str(repair.level.cell_number(cell)) for cell in cells)


def quad_words(repair, e):
    if e not in repair.patched:
        return "Quad: none, since the edge is not marked."
    number = next(at for at, (marked, _) in enumerate(repair.quads, 1) if marked == e)
    cells = ", ".join(map(told, cells_around(e)))
    order = "the lower end is inside, so in this order" if e[1] in repair.inside else "the lower end is outside, so first, fourth, third, second"
    return f"Quad {number}: cells {cells}; {order}: {quad_line(repair, repair.quads[number - 1][1])}."


def face(repair, f):
    """A face's marks as they came and afterwards, and its rim."""
    before = repair.counts.get(f, 0)
    after = [name(e) for e in edges_of_face(f) if e in repair.patched]
    rim = repair.rim_of(f)
    kind = {1: f"a {GAP}", 3: f"a {MEMBRANE}"}.get(before, "even")
    lines = [f"F{face_words(f)[1:]}: {many(before, 'mark')} as it came, {kind}" + (f" of rim {rim.number}." if rim else "."),
             f"  Marked as it came: {', '.join(marked_of(repair, f)) or 'none'}.",
             f"  Marked afterwards: {', '.join(after) or 'none'}."]
    return lines


# ---- a job's other bodies

def grid_bytes(repair):
    """The grid after sign: marks, and value 8 for a point inside."""
    grid = bytearray(repair.level.points)
    for a, p in repair.patched:
        grid[repair.level.point_number(p)] |= 1 << a
    for p in repair.inside:
        grid[repair.level.point_number(p)] |= 8
    return bytes(grid)


def quad_bytes(repair):
    return b"".join(struct.pack("<4H", *map(repair.level.cell_number, cells)) for _, cells in repair.quads)


def bodies(case, repair):
    """Whether what else the job holds is what comes of its triangles, or of its marks."""
    begun = "marks" if case.triangles is None else "triangles"
    found = {QUADS: quad_bytes(repair)} if case.triangles is None else {GRID: grid_bytes(repair), QUADS: quad_bytes(repair)}
    return [body(kind, case.bodies[kind], found[kind], begun) for kind in found if kind in case.bodies]


def body(kind, held, found, begun):
    if held == found:
        return f"The job's {KIND_NAMES[kind]}: what comes of its {begun}."
    return f"The job's {KIND_NAMES[kind]}: NOT what comes of its {begun}; byte {first_difference(held, found)} is the first that differs."


def first_difference(one, other):
    return next((at for at, (a, b) in enumerate(zip(one, other)) if a != b), min(len(one), len(other)))
