"""The repair stage for a slicer, from Python: the calls of include/omphirun.h over its shared library, by ctypes and nothing else.

Names, parameters and words are the header's. A parameter is left out where C needs it alone: a buffer brings its own length, and what
C tells behind a pointer is returned, several counts as a named tuple in the header's order. A refusal raises Refused, which carries the
number, its name, and the place and the axis where the call tells them; every buffer is then as it was. So

    omphirun_mark_all(level, grid, grid_len, triangles, triangles_len, totals, totals_len, &place, &axis)

is mark_all(level, grid, triangles, totals) here.

A buffer is anything that lends its memory: bytearray, array.array, an array of ctypes, memoryview, mmap, a numpy array; bytes and others that
can't be written where the call only reads. Nothing is copied. Grids, work bytes and files hold bytes ('B'), triangles 32-bit numbers ('i'),
quads and totals 16-bit ones ('H'); an array of several dimensions is taken row by row. What the header has a caller owe is looked at before each
call: memory of another type, with gaps, not aligned, not writable, or lent twice where it is written raises TypeError, ValueError or BufferError.
A buffer that is too short is refused by the library, as in C: 2, 8 or 16. No other thread may touch a buffer while a call runs.

The library is the file that the environment's OMPHIRUN_LIBRARY names, or else the one of this major version that the loader finds; ./install
puts it in place. It is for x86-64-v2 (x86-64 with SSE4.2 and POPCNT), and so has Python to be.
"""
import ctypes
import enum
import operator
import os
import platform
import re
from collections import namedtuple

MAJOR, MINOR, PATCH = 6, 1, 0  # of the header that this is written for

Number = enum.IntEnum("Number", {
    "DONE": 0,
    "BAD_LEVEL": 1,
    "SHORT_BUFFER": 2,
    "NOT_NINE": 3,
    "BELOW_RANGE": 4,
    "NO_GRID": 5,
    "ODD_FACE": 6,
    "SIGNS_MISFIT": 7,
    "SHORT_LIST": 8,
    "MANY_TRIANGLES": 9,
    "WRONG_LENGTH": 10,
    "TEXT_FORM": 11,
    "NOT_FINITE": 12,
    "TOO_FAR": 13,
    "BAD_SCALE": 14,
    "BAD_BOX": 15,
    "SHORT_TABLE": 16,
    "NOT_FOURS": 17,
    "CUT_SHORT": 18,
    "BAD_KIND": 19,
    "BAD_PLACE": 20,
    "ABOVE_RANGE": 24,
})

INSIDE = 8  # the sign in a grid's byte: set where the point is inside
STACK = 8192  # bytes of stack that are enough for any call


class Refused(Exception):
    """A call was refused: `call` by its name, `number` with its `name`, and `place` and `axis`, None where the call does not tell them."""

    def __init__(self, call, number, place=None, axis=None):
        super().__init__(call, number, place, axis)
        self.call, self.number, self.place, self.axis = call, number, place, axis

    @property
    def name(self):
        return Number(self.number).name

    def __str__(self):
        where = [f"{word} {value}" for word, value in (("place", self.place), ("axis", self.axis)) if value is not None]
        return ", ".join([f"{self.call} is refused by {self.number}, {self.name}"] + where)


# ---- measures of a level


def CELLS(level):
    """Cells a side at a level from 2 to 5."""
    if operator.index(level) not in (2, 3, 4, 5):
        raise ValueError(f"level is 2 to 5, and not {level}")
    return 1 << level


def POINTS(level):
    """Points of a level, the bytes of a grid and of work."""
    return (CELLS(level) + 1) ** 3


def SIDE(level):
    """A cell's side, on the lattice."""
    return (1 << 20) // CELLS(level)


def TOTALS(level):
    """The totals of a level: one for each block of 4 x 4 x 4 points, those cut off at the grid's end among them."""
    return BLOCKS(level) ** 3


def BLOCKS(level):
    """Blocks a side at a level."""
    return CELLS(level) // 4 + 1


def LOWEST(level):
    """The lowest model coordinate that mark takes at a level."""
    return SIDE(level) // 2


def HIGHEST(level):
    """The highest model coordinate that mark takes at a level."""
    return 524287 - LOWEST(level)


def EDGES(level):
    """The inner edges of a level."""
    return 3 * CELLS(level) * (CELLS(level) - 1) ** 2


def LIST(level):
    """A list that is long enough for every surface at a level, in numbers."""
    return 4 * EDGES(level)


def STL(level):
    """A buffer that is long enough for every surface of a level as binary STL, in bytes."""
    return 84 + 100 * EDGES(level)


def MASKS(level):
    """The bytes of the masks of a level."""
    row = CELLS(level) + 1
    return row * ((7 if row < 10 else 9) + row * ((row + 7) // 8))


# ---- what the header declares

_DECLARED = """
uint32_t omphirun_open(uint32_t level, uint8_t *grid, size_t grid_len, uint16_t *totals, size_t totals_len);
uint32_t omphirun_mark(uint32_t level, uint8_t *grid, size_t grid_len, const int32_t *triangle, size_t triangle_len, uint16_t *totals,
                       size_t totals_len, uint32_t *place, uint32_t *axis);
uint32_t omphirun_mark_tree(uint32_t level, uint8_t *grid, size_t grid_len, const int32_t *triangle, size_t triangle_len, uint16_t *totals,
                            size_t totals_len, uint32_t *place, uint32_t *axis);
uint32_t omphirun_mark_all(uint32_t level, uint8_t *grid, size_t grid_len, const int32_t *triangles, size_t triangles_len, uint16_t *totals,
                           size_t totals_len, size_t *place, uint32_t *axis);
uint32_t omphirun_patch(uint32_t level, uint8_t *grid, size_t grid_len, uint8_t *work, size_t work_len, uint16_t *totals,
                        size_t totals_len, uint32_t *rims, uint32_t *flips, uint32_t *ones, uint32_t *threes);
uint32_t omphirun_sign(uint32_t level, uint8_t *grid, size_t grid_len);
uint32_t omphirun_surface(uint32_t level, const uint8_t *grid, size_t grid_len, uint16_t *list, size_t list_len, uint32_t *quads);
uint32_t omphirun_read_stl(const uint8_t *file, size_t file_len, int32_t e, int32_t *list, size_t list_len, uint32_t *triangles,
                           uint32_t *axis);
uint32_t omphirun_write_stl(uint32_t level, const uint8_t *grid, size_t grid_len, int32_t e, uint8_t *file, size_t file_len,
                            size_t *bytes);
uint32_t omphirun_read_job(const uint8_t *file, size_t file_len, uint32_t *level, uint32_t *kinds, uint32_t *grid_at,
                           uint32_t *triangles_at, uint32_t *triangles_len, uint32_t *quads_at, uint32_t *quads_len);
uint32_t omphirun_write_job(uint32_t level, uint32_t kinds, const uint8_t *grid, size_t grid_len, const uint8_t *triangles,
                            size_t triangles_len, const uint8_t *quads, size_t quads_len, uint8_t *file, size_t file_len,
                            size_t *bytes);
uint32_t omphirun_accept(uint32_t level, const uint16_t *list, size_t list_len, uint8_t *grid, size_t grid_len, uint8_t *work, size_t work_len,
                         uint32_t *yes);
uint32_t omphirun_masks(uint32_t level, const uint8_t *grid, size_t grid_len, uint8_t *out, size_t out_len, size_t *bytes);
uint32_t omphirun_any_mark(uint32_t level, const uint8_t *grid, size_t grid_len, const uint16_t *totals, size_t totals_len, uint32_t low_i,
                           uint32_t low_j, uint32_t low_k, uint32_t high_i, uint32_t high_j, uint32_t high_k, uint32_t *any);
uint32_t omphirun_totals_true(uint32_t level, const uint8_t *grid, size_t grid_len, const uint16_t *totals, size_t totals_len, uint32_t *yes);
uint32_t omphirun_count_totals(uint32_t level, const uint8_t *grid, size_t grid_len, uint16_t *totals, size_t totals_len);
"""

_NUMBERS = {"uint8_t": ctypes.c_uint8, "uint16_t": ctypes.c_uint16, "uint32_t": ctypes.c_uint32, "int32_t": ctypes.c_int32,
            "size_t": ctypes.c_size_t}
_FORMATS = {"uint8_t": "Bc", "uint16_t": "H", "int32_t": "il"}  # codes of the buffer protocol; sizes are looked at too

_Parameter = namedtuple("_Parameter", "kind name type c")  # kind: a number, a buffer that is read or written, or a count


def _parameters(declared):
    """A declaration's parameters: a pointer with a length behind it is a buffer, any other a count."""
    parts = [re.fullmatch(r"(const )?(\w+) (\*?)(\w+)", part.strip()).groups() for part in declared.split(",")]
    names = {name for _, _, _, name in parts}
    for const, c, pointer, name in parts:
        if name.endswith("_len") and name[:-4] in names:
            continue
        kind = "number" if not pointer else "count" if name + "_len" not in names else "read" if const else "written"
        yield _Parameter(kind, name, _NUMBERS[c], c)


def _load():
    named = os.environ.get("OMPHIRUN_LIBRARY") or f"libomphirun.so.{MAJOR}"
    try:
        library, calls = ctypes.CDLL(named), {}
        for call, declared in re.findall(r"uint32_t omphirun_(\w+)\(([^)]*)\);", _DECLARED):
            parameters = tuple(_parameters(declared))
            function = library["omphirun_" + call]
            function.restype = ctypes.c_uint32
            function.argtypes = [word for p in parameters for word in
                                 {"number": [p.type], "count": [ctypes.POINTER(p.type)]}.get(p.kind, [ctypes.c_void_p, ctypes.c_size_t])]
            calls[call] = function, parameters
    except (OSError, AttributeError) as fault:
        where = f", and this Python is for {platform.machine()}" if platform.machine() not in ("x86_64", "AMD64") else ""
        raise ImportError(f"omphirun: {named} cannot be used: {fault}. ./install PREFIX puts the library in place, LD_LIBRARY_PATH=PREFIX/lib or "
                          f"OMPHIRUN_LIBRARY=PREFIX/lib/libomphirun.so.{MAJOR} says where it is. It is for x86-64{where}") from None
    return calls


# ---- memory that is lent


class _View(ctypes.Structure):
    """The buffer protocol's Py_buffer."""

    _fields_ = [("at", ctypes.c_void_p), ("object", ctypes.c_void_p), ("bytes", ctypes.c_ssize_t), ("size", ctypes.c_ssize_t),
                ("readonly", ctypes.c_int), ("dimensions", ctypes.c_int), ("format", ctypes.c_char_p), ("shape", ctypes.c_void_p),
                ("strides", ctypes.c_void_p), ("suboffsets", ctypes.c_void_p), ("internal", ctypes.c_void_p)]


_get_buffer = ctypes.pythonapi.PyObject_GetBuffer
_get_buffer.argtypes, _get_buffer.restype = [ctypes.py_object, ctypes.POINTER(_View), ctypes.c_int], ctypes.c_int
_release_buffer = ctypes.pythonapi.PyBuffer_Release
_release_buffer.argtypes, _release_buffer.restype = [ctypes.POINTER(_View)], None
_WRITABLE, _FORMAT, _WITHOUT_GAPS = 0x01, 0x04, 0x38  # as Python.h has them


def _fault_of(parameter, view):
    """What is wrong with lent memory, if anything."""
    code = (view.format or b"B").decode().lstrip("@=<")
    if len(code) != 1 or code not in _FORMATS[parameter.c] or view.size != ctypes.sizeof(parameter.type):
        return TypeError(f"{parameter.name} has to hold {parameter.c} ('{_FORMATS[parameter.c][0]}'), and not '{(view.format or b'B').decode()}'")
    if view.bytes and view.at % view.size:  # an empty array may point anywhere
        return ValueError(f"{parameter.name} is not aligned")
    return None


def _lend(parameter, given):
    """The memory of an object, until it is released: meanwhile it is neither moved nor freed."""
    view = _View()
    try:
        _get_buffer(given, view, _FORMAT | _WITHOUT_GAPS | (_WRITABLE if parameter.kind == "written" else 0))
    except (TypeError, ValueError, BufferError) as fault:
        raise next(k for k in (TypeError, ValueError, BufferError) if isinstance(fault, k))(f"{parameter.name}: {fault}") from None
    fault = _fault_of(parameter, view)
    if fault:
        _release_buffer(view)
        raise fault
    return view


def _hold_apart(lent):
    """What a call writes may overlap nothing else that it is lent."""
    for number, (one, a) in enumerate(lent):
        for other, b in lent[:number]:
            if "written" in (one.kind, other.kind) and a.bytes and b.bytes and a.at < b.at + b.bytes and b.at < a.at + a.bytes:
                raise ValueError(f"{other.name} and {one.name} overlap")


def _number(parameter, given):
    number = operator.index(given)
    if parameter.type(number).value != number:
        raise OverflowError(f"{parameter.name} is {parameter.c}, and {number} is none")
    return number


_TELLS_PLACE, _TELLS_AXIS = (4, 24), (4, 24, 12)


def _call(call, *given):
    """Runs a call and returns its counts in their order, or raises Refused."""
    function, parameters = _CALLS[call]
    words, lent, counts, left = [], [], {}, iter(given)
    try:
        for p in parameters:
            if p.kind == "number":
                words.append(_number(p, next(left)))
            elif p.kind == "count":
                counts[p.name] = p.type()
                words.append(counts[p.name])
            else:
                view = _lend(p, next(left))
                lent.append((p, view))
                words += [view.at if view.bytes else None, view.bytes // view.size]
        _hold_apart(lent)
        number = function(*words)
    finally:
        for _, view in lent:
            _release_buffer(view)
    told = {name: count.value for name, count in counts.items()}
    if number:
        raise Refused(call, Number(number), told["place"] if number in _TELLS_PLACE else None, told["axis"] if number in _TELLS_AXIS else None)
    return tuple(told.values())


_CALLS = _load()

# ---- the calls, with the header's words

Patched = namedtuple("Patched", "rims flips ones threes")
Job = namedtuple("Job", "level kinds grid_at triangles_at triangles_len quads_at quads_len")


def open(level, grid, totals):
    """Open. The first P bytes of the grid become 0, whatever they held: a grid without marks and signs. All totals become 0.

    Refusals: 1, 2, 16.
    """
    _call("open", level, grid, totals)


def mark(level, grid, triangle, totals):
    """Mark. The triangle is nine model coordinates, Ax Ay Az Bx By Bz Cx Cy Cz. The marks of all edges that it meets are added and none is
    removed; all signs are cleared, also where no mark is added. An edge is met when none of thirteen axes separates it from the triangle;
    touching is meeting. A triangle square to an axis adds marks only to edges along that axis that go through its plane, in one layer of
    cells, so that a flat face does not thicken; one that is sloped can go through a grid point, and then meets all six edges there.
    Triangles of no area are allowed. The order of triangles makes no difference, nor does marking one twice. Each call looks at all P bytes
    first, since it takes any buffer and 5 has to be told, and counts all totals behind its last mark, so that each is true afterwards: for
    a small triangle these two passes are most of its time. When it is refused by 4 or 24, *place is the place of the first coordinate that
    is out, 0 to 8 in the order of the nine, and *axis its axis, 0 to 2; both are 0 in every other case.

    Refusals, in this order: 1, 2, 3, 4 or 24, 5, 16.
    """
    _call("mark", level, grid, triangle, totals)


def mark_tree(level, grid, triangle, totals):
    """Mark by a descent: the whole grid is one cube; a cube that an axis separates from the triangle is dropped, any other is divided into
    eight, down to single cells. Its promise is mark's own, word for word: nobody can tell the two apart, refusals, place and axis included,
    but by the time they take. Mark goes through all cells of the triangle's box, and is faster where that has up to some 1,200 cells; this
    call goes through those near the triangle, and is faster where it has more: a triangle and a needle through the whole grid of level 5
    took it 0.42 and 0.16 of mark's time on x86-64 (docs/BENCH.md).

    Refusals, in this order: 1, 2, 3, 4 or 24, 5, 16.
    """
    _call("mark_tree", level, grid, triangle, totals)


def mark_all(level, grid, triangles, totals):
    """Mark many triangles: nine numbers each, one behind the other, any number of them. It leaves exactly what mark, called for each triangle
    in turn, would leave when all are done: with none nothing changes, signs and totals included. Every coordinate is judged before the
    first mark, so a refusal changes nothing. What read_stl gives can be handed on as it is, 9 * *triangles numbers of its list. The list is
    gone through twice, and the grid is judged and the totals are counted once for all triangles, where mark does both for each. When it is
    refused by 4 or 24, *place is the place in the list of the first coordinate that is out, and *axis its axis, 0 to 2: it is coordinate
    *place % 9 of triangle *place / 9, both counted from 0. Both are 0 in every other case.

    Refusals, in this order: 1, 2, 3, 4 or 24, 5, 16.
    """
    _call("mark_all", level, grid, triangles, totals)


def patch(level, grid, work, totals):
    """Patch. Marks are added and taken away until every face of every cell has an even number of marked edges, and all signs are cleared. The
    first P work bytes are 0 afterwards, whatever they held. *rims is the number of rims, which are the faces with an odd number of marks,
    taken together where they touch by a cell; *flips is the number of edges whose mark differs between entry and exit. No edge is altered
    unless all four cells around it lie in the box of one rim. *ones and *threes are the numbers of faces with one marked edge and with
    three, as the grid came in: where the marked surface ends, because the model lacks faces, and where three sheets of it meet, because it
    has extra walls. Together they are the odd faces, and both are 0 exactly when *rims is. The totals are those of the patched grid,
    counted in the pass that counts the flips.

    Refusals, in this order: 1, 2, 5, 16, with all four counts 0.
    """
    return Patched(*_call("patch", level, grid, work, totals))


def sign(level, grid):
    """Sign. Value 8 of the first P bytes is set inside and taken away outside, whatever signs there were; the marks stay. Point (0,0,0) is
    outside, and two ends of an edge differ exactly when the edge is marked. There is exactly one such assignment when no face is odd, as
    after patch. Called again it changes nothing.

    Refusals: 1, 2, 5, 6.
    """
    _call("sign", level, grid)


def surface(level, grid, list):
    """Surface, of a grid that sign has signed. For each marked edge, by rising point number, x before y before z, one quad: the numbers of the
    four cells around the edge, counterclockwise as seen from outside. *quads is their number, which is that of the marked edges; the first
    4 * *quads entries of the list are written, and those behind keep their contents.

    Refusals: 1, 2, 5, 7, 8, with *quads 0.
    """
    return _call("surface", level, grid, list)[0]


def read_stl(file, e, list):
    """Read a binary STL file: 80 header bytes, a little-endian u32 count, then 50 bytes a triangle (normal, three vertices, all f32, and a
    u16). Each coordinate times 2^e is rounded to the nearest whole number, halves away from zero; normals and the u16 are not looked at.
    The triangles go to the front of the list, nine numbers each in file order, and those behind keep their contents; *triangles is their
    number. They are model coordinates as mark takes them; whether a triangle lies in a level's range is for mark to say. One pass over the
    vertices: at the first faulty one it is 12 when any of its numbers is not finite, with the axis of the first such number in *axis, 0 to
    2, and 13 otherwise; 2^30 itself is no fault.

    Refusals, in this order: 14, 11, 10, 8, then 12 or 13, with *triangles 0; *axis is 0 but with 12.
    """
    return _call("read_stl", file, e, list)[0]


def write_stl(level, grid, e, file):
    """Write the surface as a binary STL file: 80 zero bytes, the count, then two triangles for each quad of surface, in its order, corners
    1-2-3 and 1-3-4. The normal is the outward axis vector, its zeros +0; the u16 is 0. A corner lies at the centre of its cell: with c the
    centre's lattice place, its number is (c-1)/2 times 2^-e, which is not rounded. Read by read_stl with the same e it is c/2. Grid and
    signs are those that surface takes. *bytes is the number of bytes written, 84 + 100 for each quad, and those behind keep their contents.
    Each directed edge of the triangles occurs as often as its reverse. It costs two passes over the grid, as surface does, and 100 bytes a
    quad.

    Refusals, in this order: 1, 2, 14, 5, 7, 8, with *bytes 0.
    """
    return _call("write_stl", level, grid, e, file)[0]


def read_job(file):
    """Read a job file: the level byte, a count byte of 0 to 3, then for each body its kind (one byte), offset and length (little-endian u32
    each); bodies follow without gaps, in rising order of kind, each kind at most once: 1 a grid of P bytes, 2 triangles of 36 bytes each, 3
    quads of 8 bytes each. *kinds is 1 for a grid, 2 for triangles, 4 for quads, added; *grid_at and the others are where the bodies begin
    and how long they are, in bytes, and 0 for a body that is not there; a grid body is P bytes long. The grid body is a grid as any buffer
    is; signs in it, where a grid carries any, are not held against its marks. Triangles and quads are not looked into. The call takes the
    time of looking at the grid's P bytes.

    Refusals, in this order: 18 for an empty file; 1; 18 for a table of contents that is cut short or a count above 3; 19, for any body,
    before 20 for any; 5. With each of them everything that is told is 0.
    """
    return Job(*_call("read_job", file))


def write_job(level, kinds, grid, triangles, quads, file):
    """Write a job file with the bodies that `kinds` asks for, as they are; the others are not looked at. *bytes is the number of bytes
    written, and those behind keep their contents. 29 bytes more than the bodies are always enough. What is written reads back the same, and
    what read_job reads is written the same again.

    Refusals, in this order: 1; 19 for kinds above 7; 20 for a length that is not P, a multiple of 36 or a multiple of 8, or an offset or
    length too large for a u32; 5; 8. *bytes is 0 with each of them.
    """
    return _call("write_job", level, kinds, grid, triangles, quads, file)[0]


def accept(level, list, grid, work):
    """Accept: check a surface that came from elsewhere, four cell numbers a quad. *yes is 1 exactly when some grid of signs with nothing
    inside on its outer points has this surface, the order of quads and the starting corner of each set aside, else 0. There is at most one
    such grid; on a yes its marks and signs are the first P bytes of the grid, as after sign, and on a no the grid is as it was. What the
    grid held does not matter. An empty list is accepted as all outside; a cell number outside the grid, a quad twice or the wrong way
    round, one too few or one too many is a no. What surface writes is accepted and gives the grid that it was written from; what is
    accepted, written by surface again, is the same set of quads. The first P work bytes are 0 after a yes and after a no, whatever they
    held. One pass over the list, and a fixed number of passes over the P bytes.

    Refusals, in this order: 1, 2, 17, with *yes 0; never 5.
    """
    return _call("accept", level, list, grid, work) == (1,)


def masks(level, grid, out):
    """Masks for a resin screen: a binary PBM picture (Netpbm, P4) of each layer of points, k rising, one behind another. Each has its header,
    `P4`, newline, width, one space, height, newline, and then n+1 rows of n+1 columns, x rising to the right and y rising downward; a point
    inside is 1. A row is padded with zeros to whole bytes, its first point in the highest bit. Grid and signs are those that surface takes.
    *bytes is the number of bytes written, OMPHIRUN_MASKS(level), and those behind keep their contents. It looks at each point once besides
    the tests that surface makes too.

    Refusals, in this order: 1, 2, 5, 7, 8, with *bytes 0.
    """
    return _call("masks", level, grid, out)[0]


def any_mark(level, grid, totals, low_i, low_j, low_k, high_i, high_j, high_k):
    """Ask whether a box of points has any mark. The box is given by its lowest and its highest point, both in it. *any is 1 or 0: for a block
    that lies wholly inside the box its total answers, for one that lies partly inside the bytes of its points in the box; a block that is
    cut off at the grid's end lies wholly inside when all the points that it has do. When every total is true that is the answer read from
    all the bytes of the box. With an untrue table it is what this rule yields: totals are believed, and totals_true tells whether they may
    be. No byte makes the buffer unfit: one above 15 has a mark when its remainder by 8 is not 0. The call looks at each block that the box
    reaches once, and at bytes only of those that its border cuts; it ends at the first mark.

    Refusals, in this order: 1, 2, 15, 16, with *any 0; never 5.
    """
    return _call("any_mark", level, grid, totals, low_i, low_j, low_k, high_i, high_j, high_k) == (1,)


def totals_true(level, grid, totals):
    """Tell whether the table is true: *yes is 1 when each total is the number of marks in its block, for the bytes as they are, else 0. One
    pass over the P bytes.

    Refusals, in this order: 1, 2, 16, with *yes 0; never 5.
    """
    return _call("totals_true", level, grid, totals) == (1,)


def count_totals(level, grid, totals):
    """Make the table true for bytes that came another way than by open, mark and patch: from accept, a job file or a caller's own hand. The
    grid is not changed, so signs stay, and need not be one. One pass over the P bytes.

    Refusals, in this order: 1, 2, 16; never 5.
    """
    _call("count_totals", level, grid, totals)
