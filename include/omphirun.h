/* The repair stage for a slicer: five calls, mark in a second form and for many triangles, two that read and write binary STL, two that read
   and write job files, one that checks a surface, one that writes masks, and three about the table of totals, on memory that the caller lends.

   `./install PREFIX` puts this header and the library in place, for x86-64-v2: `pkg-config --cflags --libs omphirun` tells a compiler the rest.
   Without it, link with libstage.a, which `rt lib` in crates/stage writes to out/ there. examples/plate.c shows the calls in their order:
   read_stl, open, mark_all, patch, sign, write_stl, masks; examples/slicer.c marks triangle by triangle, and takes the surface as quads.

   Measures. At level L, 2 to 5, the grid has n = 2^L cells a side and P = (n+1)^3 points. Lattice coordinates run from 0 to
   2^20; a cell's side is S = 2^(20-L), and point (i,j,k) lies at (iS, jS, kS). Triangles are given in model coordinates, 0 to 524,287:
   v stands for the lattice coordinate 2v+1, which is odd and so never on a grid plane. A point's number is i + (n+1)(j + (n+1)k), a
   cell's i + n(j + nk). A grid holds one byte a point: 1 for a marked x edge from that point on, 2 for y, 4 for z, and 8
   (OMPHIRUN_INSIDE) for a point inside, added. A mark stands only on an inner edge, one whose two crosswise coordinates lie in 1..n-1;
   a byte above 15 or a mark elsewhere makes the buffer no grid. Open, mark and patch clear all signs, those of a call that is refused
   are kept; sign writes them, and surface reads them.

   Totals. The points are divided into blocks of 4 x 4 x 4, of which the last on each axis are cut off where the grid ends. With w = n/4 + 1
   blocks a side, point (i,j,k) lies in the block of number i/4 + w(j/4 + w(k/4)), quotients rounded down, and there are w^3 of them,
   OMPHIRUN_TOTALS. A table of totals is one u16 a block: the number of marks in it, at most 192. A mark is an edge's mark, so a byte has up to
   three of them; it has one at all when its remainder by 8 is not 0. The table is there for any_mark, which tells from it whether a box
   of points has any mark. Open, mark in each form and patch make every total true, whatever it was, and nothing else does but count_totals; so it
   stays true as long as the caller's bytes change by these calls alone (sign changes no mark). A caller that never asks lends a table all the
   same: it is 1,458 bytes at level 5, and none of the calls goes over the grid once more to count.

   Memory. A repair needs a grid, work bytes and a table of totals, and a list that is as long as the caller likes, at most OMPHIRUN_LIST:

     level          P   grid and work   totals        bytes   the longest list
       2          125       250 bytes        8     16 bytes          864 bytes
       3          729     1,458 bytes       27     54 bytes        9,408 bytes
       4        4,913     9,826 bytes      125    250 bytes       86,400 bytes
       5       35,937    71,874 bytes      729  1,458 bytes      738,048 bytes

   Which call marks. Each of these leaves the same marks:

     mark_all    for a list of triangles, as read_stl gives it. The grid is judged once for all of them, and each triangle goes by whichever
                 way takes less time: the one to choose, unless triangles come one at a time and none is to be kept
     mark        for one triangle, and a small one: up to some 2,000 cells in its box
     mark_tree   for one triangle that is larger, or a needle
     repair      the program: a stream of triangles in, the list of quads out, and no C at all (README.md)

   What a call costs: how often it goes over the P bytes of a grid or of work, and through what else. It takes no memory but what is lent and
   OMPHIRUN_STACK bytes of stack. Where it is refused it stops earlier.

     open                       1                                   the table
     mark                       1, and 1 where there are signs      the cells in the triangle's box, and the blocks near the triangle
     mark_tree                  1, and 1 where there are signs      the cells and the blocks near the triangle
     mark_all                   2, and 1 where there are signs      the list twice, for each triangle the fewer of these cells
     patch                      5                                   the cells in the box of each rim, some times
     sign                       3
     surface                    4                                   8 bytes a quad
     write_stl                  4                                   100 bytes a quad
     masks                      3                                   the bytes of the pictures
     accept                     6                                   the list once
     totals_true, count_totals  1                                   the table
     any_mark                   0                                   the blocks wholly inside the box, and the other bytes of it
     read_stl                   0                                   the file twice
     read_job                   1                                   the table of contents; no other body
     write_job                  2                                   the other bodies once

   Every call returns OMPHIRUN_DONE, 0, or else the lowest number of this table that applies; where a call names its numbers in another
   order, the first of them. Each number is given exactly when its line says, for any contents of the buffers. The names stand below.

     1  the level is not 2 to 5                                    all calls with a level, read_job
     2  a grid or work buffer is shorter than P                    all calls with a level but write_job
     3  the triangle is not nine numbers, fewer or more            mark, mark_tree
        the list's length is not a multiple of nine                mark_all
     4  a coordinate lies outside S/2 to 524,287 - S/2, and the
        first that does lies below it                              mark, mark_tree, mark_all
    24  a coordinate lies outside S/2 to 524,287 - S/2, and the
        first that does lies above it                              mark, mark_tree, mark_all
     5  the buffer is no grid                                      all of these but open, accept
                                                                   and those about totals
        the grid body is no grid                                   read_job, write_job
     6  some face of a cell has an odd number of marked edges      sign
     7  point (0,0,0) inside, an edge whose ends differ in sign
        and that has no mark, or one with a mark whose ends do
        not differ                                                 surface, write_stl, masks
     8  the list is shorter than four times the quads              surface
        the list is shorter than nine times the triangles          read_stl
        the byte buffer is shorter than the file                   write_stl, write_job
        the byte buffer is shorter than the pictures               masks
     9  more than 100,000 triangles                                the program repair alone
    10  the file's length is not 84 + 50 * count                   read_stl
    11  nor that, and the file begins with `solid`: the text form  read_stl
    12  a coordinate is a NaN or infinite                          read_stl
    13  a coordinate is beyond 2^30 in size                        read_stl
    14  e is not -20 to 20                                         read_stl, write_stl
    15  the box is empty or leaves the grid                        any_mark
    16  the table of totals is shorter than the blocks             open, mark, mark_tree, mark_all,
                                                                   patch, any_mark, totals_true,
                                                                   count_totals
    17  the list's length is not a multiple of four                accept
    18  the file is empty, its table of contents is cut short, or
        its count is above 3                                       read_job
    19  a kind of body is unknown, repeated or out of order        read_job, write_job
    20  an offset or a length is wrong or too large for a u32, or
        bytes stand behind the last body                           read_job, write_job

   A refusal changes no buffer and sets every count to 0. Grid and work buffers may be longer than P, the table longer than the blocks, and
   the list longer than it has to be: what lies behind is neither read nor changed.

   What the caller owes, and no call can check:
   - each pointer to a buffer is valid for as many elements as its length says, and aligned for them; lengths are in elements. A null
     pointer is fine where the length is 0: that is an empty buffer;
   - each pointer to a count (place, axis, rims, flips, ones, threes, quads, triangles, bytes, yes, any, all that read_job tells) is valid: it
     is written in every case, so it is never null;
   - no buffer or count that a call writes overlaps another one of that call. Two that it only reads may;
   - OMPHIRUN_STACK bytes of stack are left. The calls take no memory but that and what is lent, and keep no state.
   Every other misuse is a refusal. Each promise here is a theorem about the code behind it, under these conditions. That calls with
   buffers of their own may run in several threads at the same time follows from there being no state; it is no theorem, since the proof
   knows one thread only. Nor is the stack: it was measured, and a test holds it. */
#ifndef OMPHIRUN_H
#define OMPHIRUN_H

#include <stddef.h>
#include <stdint.h>

#ifdef __cplusplus
extern "C" {
#endif

/* The version: the first number rises when a caller has to change, the second when there is something new. It stands here alone. */
#define OMPHIRUN_MAJOR 6
#define OMPHIRUN_MINOR 1
#define OMPHIRUN_PATCH 0

/* What a call returns. */
enum omphirun_number {
    OMPHIRUN_DONE = 0,
    OMPHIRUN_BAD_LEVEL = 1,
    OMPHIRUN_SHORT_BUFFER = 2,
    OMPHIRUN_NOT_NINE = 3,
    OMPHIRUN_BELOW_RANGE = 4,
    OMPHIRUN_NO_GRID = 5,
    OMPHIRUN_ODD_FACE = 6,
    OMPHIRUN_SIGNS_MISFIT = 7,
    OMPHIRUN_SHORT_LIST = 8,
    OMPHIRUN_MANY_TRIANGLES = 9,
    OMPHIRUN_WRONG_LENGTH = 10,
    OMPHIRUN_TEXT_FORM = 11,
    OMPHIRUN_NOT_FINITE = 12,
    OMPHIRUN_TOO_FAR = 13,
    OMPHIRUN_BAD_SCALE = 14,
    OMPHIRUN_BAD_BOX = 15,
    OMPHIRUN_SHORT_TABLE = 16,
    OMPHIRUN_NOT_FOURS = 17,
    OMPHIRUN_CUT_SHORT = 18,
    OMPHIRUN_BAD_KIND = 19,
    OMPHIRUN_BAD_PLACE = 20,
    OMPHIRUN_ABOVE_RANGE = 24
};

/* The sign in a grid's byte: set where the point is inside. */
#define OMPHIRUN_INSIDE 8

/* Cells a side, points and a cell's side at a level from 2 to 5. */
#define OMPHIRUN_CELLS(level) (1u << (level))
#define OMPHIRUN_POINTS(level) ((OMPHIRUN_CELLS(level) + 1) * (OMPHIRUN_CELLS(level) + 1) * (OMPHIRUN_CELLS(level) + 1))
#define OMPHIRUN_SIDE(level) (1 << (20 - (level)))

/* The totals of a level: one for each block of 4 x 4 x 4 points, those cut off at the grid's end among them. */
#define OMPHIRUN_BLOCKS(level) (OMPHIRUN_CELLS(level) / 4 + 1)
#define OMPHIRUN_TOTALS(level) (OMPHIRUN_BLOCKS(level) * OMPHIRUN_BLOCKS(level) * OMPHIRUN_BLOCKS(level))

/* The lowest and the highest model coordinate that mark takes at a level, S/2 and 524,287 - S/2. */
#define OMPHIRUN_LOWEST(level) (1 << (19 - (level)))
#define OMPHIRUN_HIGHEST(level) (524287 - OMPHIRUN_LOWEST(level))

/* A list that is long enough for every surface at a level, in numbers: four for each inner edge, of which there are 3 n (n-1)^2. */
#define OMPHIRUN_EDGES(level) (3 * OMPHIRUN_CELLS(level) * (OMPHIRUN_CELLS(level) - 1) * (OMPHIRUN_CELLS(level) - 1))
#define OMPHIRUN_LIST(level) (4 * OMPHIRUN_EDGES(level))

/* A buffer that is long enough for every surface of a level as binary STL, in bytes. */
#define OMPHIRUN_STL(level) (84 + 100 * OMPHIRUN_EDGES(level))

/* The bytes of the masks of a level: a picture for each of n+1 layers, of a header and n+1 rows. */
#define OMPHIRUN_MASKS(level) \
    ((OMPHIRUN_CELLS(level) + 1) * ((OMPHIRUN_CELLS(level) < 9 ? 7 : 9) + (OMPHIRUN_CELLS(level) + 1) * ((OMPHIRUN_CELLS(level) + 8) / 8)))

/* Bytes of stack that are enough for any call: patch was measured to take 6.5 kB, mark_tree 4.6, mark 3.3, mark_all 2.4, every other call less
   than 1 kB. */
#define OMPHIRUN_STACK 8192

/* Open. The first P bytes of the grid become 0, whatever they held: a grid without marks and signs. All totals become 0.
   Refusals: 1, 2, 16. */
uint32_t omphirun_open(uint32_t level, uint8_t *grid, size_t grid_len, uint16_t *totals, size_t totals_len);

/* Mark. The triangle is nine model coordinates, Ax Ay Az Bx By Bz Cx Cy Cz. The marks of all edges that it meets are added and none
   is removed; all signs are cleared, also where no mark is added. An edge is met when none of thirteen axes separates it from the
   triangle; touching is meeting. A triangle square to an axis adds marks only to edges along that axis that go through its plane, in
   one layer of cells, so that a flat face does not thicken; one that is sloped can go through a grid point, and then meets all six
   edges there. Triangles of no area are allowed. The order of triangles makes no difference, nor does marking one twice. Each call
   looks at all P bytes first, since it takes any buffer and 5 has to be told, and counts all totals behind its last mark, so that each is
   true afterwards: for a small triangle these two passes are most of its time.
   When it is refused by 4 or 24, *place is the place of the first coordinate that is out, 0 to 8 in the order of the nine, and *axis its
   axis, 0 to 2; both are 0 in every other case.
   Refusals, in this order: 1, 2, 3, 4 or 24, 5, 16. */
uint32_t omphirun_mark(uint32_t level, uint8_t *grid, size_t grid_len, const int32_t *triangle, size_t triangle_len, uint16_t *totals,
                       size_t totals_len, uint32_t *place, uint32_t *axis);

/* Mark by a descent: the whole grid is one cube; a cube that an axis separates from the triangle is dropped, any other is divided into
   eight, down to single cells. Its promise is mark's own, word for word: nobody can tell the two apart, refusals, place and axis included,
   but by the time they take. Mark goes through all cells of the triangle's box, and is faster where that has up to some 1,200 cells; this
   call goes through those near the triangle, and is faster where it has more: a triangle and a needle through the whole grid of level 5
   took it 0.42 and 0.16 of mark's time on x86-64 (docs/BENCH.md).
   Refusals, in this order: 1, 2, 3, 4 or 24, 5, 16. */
uint32_t omphirun_mark_tree(uint32_t level, uint8_t *grid, size_t grid_len, const int32_t *triangle, size_t triangle_len, uint16_t *totals,
                            size_t totals_len, uint32_t *place, uint32_t *axis);

/* Mark many triangles: nine numbers each, one behind the other, any number of them. It leaves exactly what mark, called for each triangle in
   turn, would leave when all are done: with none nothing changes, signs and totals included. Every coordinate is judged before the first
   mark, so a refusal changes nothing. What read_stl gives can be handed on as it is, 9 * *triangles numbers of its list. The list is gone
   through twice, and the grid is judged and the totals are counted once for all triangles, where mark does both for each.
   When it is refused by 4 or 24, *place is the place in the list of the first coordinate that is out, and *axis its axis, 0 to 2: it is
   coordinate *place % 9 of triangle *place / 9, both counted from 0. Both are 0 in every other case.
   Refusals, in this order: 1, 2, 3, 4 or 24, 5, 16. */
uint32_t omphirun_mark_all(uint32_t level, uint8_t *grid, size_t grid_len, const int32_t *triangles, size_t triangles_len, uint16_t *totals,
                           size_t totals_len, size_t *place, uint32_t *axis);

/* Patch. Marks are added and taken away until every face of every cell has an even number of marked edges, and all signs are cleared.
   The first P work bytes are 0 afterwards, whatever they held. *rims is the number of rims, which are the faces with an odd number of
   marks, taken together where they touch by a cell; *flips is the number of edges whose mark differs between entry and exit. No edge
   is altered unless all four cells around it lie in the box of one rim. *ones and *threes are the numbers of faces with one marked
   edge and with three, as the grid came in: where the marked surface ends, because the model lacks faces, and where three sheets of
   it meet, because it has extra walls. Together they are the odd faces, and both are 0 exactly when *rims is. The totals are those of the
   patched grid, counted in the pass that counts the flips.
   Refusals, in this order: 1, 2, 5, 16, with all four counts 0. */
uint32_t omphirun_patch(uint32_t level, uint8_t *grid, size_t grid_len, uint8_t *work, size_t work_len, uint16_t *totals,
                        size_t totals_len, uint32_t *rims, uint32_t *flips, uint32_t *ones, uint32_t *threes);

/* Sign. Value 8 of the first P bytes is set inside and taken away outside, whatever signs there were; the marks stay. Point (0,0,0) is
   outside, and two ends of an edge differ exactly when the edge is marked. There is exactly one such assignment when no face is odd, as
   after patch. Called again it changes nothing.
   Refusals: 1, 2, 5, 6. */
uint32_t omphirun_sign(uint32_t level, uint8_t *grid, size_t grid_len);

/* Surface, of a grid that sign has signed. For each marked edge, by rising point number, x before y before z, one quad: the numbers
   of the four cells around the edge, counterclockwise as seen from outside. *quads is their number, which is that of the marked
   edges; the first 4 * *quads entries of the list are written, and those behind keep their contents.
   Refusals: 1, 2, 5, 7, 8, with *quads 0. */
uint32_t omphirun_surface(uint32_t level, const uint8_t *grid, size_t grid_len, uint16_t *list, size_t list_len, uint32_t *quads);

/* Read a binary STL file: 80 header bytes, a little-endian u32 count, then 50 bytes a triangle (normal, three vertices, all f32, and
   a u16). Each coordinate times 2^e is rounded to the nearest whole number, halves away from zero; normals and the u16 are not looked
   at. The triangles go to the front of the list, nine numbers each in file order, and those behind keep their contents; *triangles is
   their number. They are model coordinates as mark takes them; whether a triangle lies in a level's range is for mark to say. One
   pass over the vertices: at the first faulty one it is 12 when any of its numbers is not finite, with the axis of the first such
   number in *axis, 0 to 2, and 13 otherwise; 2^30 itself is no fault.
   Refusals, in this order: 14, 11, 10, 8, then 12 or 13, with *triangles 0; *axis is 0 but with 12. */
uint32_t omphirun_read_stl(const uint8_t *file, size_t file_len, int32_t e, int32_t *list, size_t list_len, uint32_t *triangles,
                           uint32_t *axis);

/* Write the surface as a binary STL file: 80 zero bytes, the count, then two triangles for each quad of surface, in its order, corners
   1-2-3 and 1-3-4. The normal is the outward axis vector, its zeros +0; the u16 is 0. A corner lies at the centre of its cell: with c the
   centre's lattice place, its number is (c-1)/2 times 2^-e, which is not rounded. Read by read_stl with the same e it is c/2. Grid and signs
   are those that surface takes. *bytes is the number of bytes written, 84 + 100 for each quad, and those behind keep their contents. Each
   directed edge of the triangles occurs as often as its reverse. It costs two passes over the grid, as surface does, and 100 bytes a quad.
   Refusals, in this order: 1, 2, 14, 5, 7, 8, with *bytes 0. */
uint32_t omphirun_write_stl(uint32_t level, const uint8_t *grid, size_t grid_len, int32_t e, uint8_t *file, size_t file_len,
                            size_t *bytes);

/* Read a job file: the level byte, a count byte of 0 to 3, then for each body its kind (one byte), offset and length (little-endian u32
   each); bodies follow without gaps, in rising order of kind, each kind at most once: 1 a grid of P bytes, 2 triangles of 36 bytes each, 3
   quads of 8 bytes each. *kinds is 1 for a grid, 2 for triangles, 4 for quads, added; *grid_at and the others are where the bodies begin
   and how long they are, in bytes, and 0 for a body that is not there; a grid body is P bytes long. The grid body is a grid as any buffer
   is; signs in it, where a grid carries any, are not held against its marks. Triangles and quads are not looked into. The call takes the time
   of looking at the grid's P bytes.
   Refusals, in this order: 18 for an empty file; 1; 18 for a table of contents that is cut short or a count above 3; 19, for any body, before
   20 for any; 5. With each of them everything that is told is 0. */
uint32_t omphirun_read_job(const uint8_t *file, size_t file_len, uint32_t *level, uint32_t *kinds, uint32_t *grid_at,
                           uint32_t *triangles_at, uint32_t *triangles_len, uint32_t *quads_at, uint32_t *quads_len);

/* Write a job file with the bodies that `kinds` asks for, as they are; the others are not looked at. *bytes is the number of bytes
   written, and those behind keep their contents. 29 bytes more than the bodies are always enough. What is written reads back the same, and
   what read_job reads is written the same again.
   Refusals, in this order: 1; 19 for kinds above 7; 20 for a length that is not P, a multiple of 36 or a multiple of 8, or an offset or length
   too large for a u32; 5; 8. *bytes is 0 with each of them. */
uint32_t omphirun_write_job(uint32_t level, uint32_t kinds, const uint8_t *grid, size_t grid_len, const uint8_t *triangles,
                            size_t triangles_len, const uint8_t *quads, size_t quads_len, uint8_t *file, size_t file_len,
                            size_t *bytes);

/* Accept: check a surface that came from elsewhere, four cell numbers a quad. *yes is 1 exactly when some grid of signs with nothing
   inside on its outer points has this surface, the order of quads and the starting corner of each set aside, else 0. There is at most
   one such grid; on a yes its marks and signs are the first P bytes of the grid, as after sign, and on a no the grid is as it was.
   What the grid held does not matter. An empty list is accepted as all outside; a cell number outside the grid, a quad twice or the
   wrong way round, one too few or one too many is a no. What surface writes is accepted and gives the grid that it was written from;
   what is accepted, written by surface again, is the same set of quads. The first P work bytes are 0 after a yes and after a no,
   whatever they held. One pass over the list, and a fixed number of passes over the P bytes.
   Refusals, in this order: 1, 2, 17, with *yes 0; never 5. */
uint32_t omphirun_accept(uint32_t level, const uint16_t *list, size_t list_len, uint8_t *grid, size_t grid_len, uint8_t *work, size_t work_len,
                         uint32_t *yes);

/* Masks for a resin screen: a binary PBM picture (Netpbm, P4) of each layer of points, k rising, one behind another. Each has its
   header, `P4`, newline, width, one space, height, newline, and then n+1 rows of n+1 columns, x rising to the right and y rising
   downward; a point inside is 1. A row is padded with zeros to whole bytes, its first point in the highest bit. Grid and signs are
   those that surface takes. *bytes is the number of bytes written, OMPHIRUN_MASKS(level), and those behind keep their contents. It
   looks at each point once besides the tests that surface makes too.
   Refusals, in this order: 1, 2, 5, 7, 8, with *bytes 0. */
uint32_t omphirun_masks(uint32_t level, const uint8_t *grid, size_t grid_len, uint8_t *out, size_t out_len, size_t *bytes);

/* Ask whether a box of points has any mark. The box is given by its lowest and its highest point, both in it. *any is 1 or 0: for a block that
   lies wholly inside the box its total answers, for one that lies partly inside the bytes of its points in the box; a block that is cut off at
   the grid's end lies wholly inside when all the points that it has do. When every total is true that is the answer read from all the
   bytes of the box. With an untrue table it is what this rule yields: totals are believed, and totals_true tells whether they may be. No
   byte makes the buffer unfit: one above 15 has a mark when its remainder by 8 is not 0. The call looks at each block that the box reaches
   once, and at bytes only of those that its border cuts; it ends at the first mark.
   Refusals, in this order: 1, 2, 15, 16, with *any 0; never 5. */
uint32_t omphirun_any_mark(uint32_t level, const uint8_t *grid, size_t grid_len, const uint16_t *totals, size_t totals_len, uint32_t low_i,
                           uint32_t low_j, uint32_t low_k, uint32_t high_i, uint32_t high_j, uint32_t high_k, uint32_t *any);

/* Tell whether the table is true: *yes is 1 when each total is the number of marks in its block, for the bytes as they are, else 0. One pass
   over the P bytes.
   Refusals, in this order: 1, 2, 16, with *yes 0; never 5. */
uint32_t omphirun_totals_true(uint32_t level, const uint8_t *grid, size_t grid_len, const uint16_t *totals, size_t totals_len, uint32_t *yes);

/* Make the table true for bytes that came another way than by open, mark and patch: from accept, a job file or a caller's own hand. The grid is
   not changed, so signs stay, and need not be one. One pass over the P bytes.
   Refusals, in this order: 1, 2, 16; never 5. */
uint32_t omphirun_count_totals(uint32_t level, const uint8_t *grid, size_t grid_len, uint16_t *totals, size_t totals_len);

#ifdef __cplusplus
}
#endif

#endif
