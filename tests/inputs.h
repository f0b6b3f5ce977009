/* One call's input, what the harness has to know of a call, and the making of inputs of every kind. A call is added by its reference in
   reference_NAME.c (declared in reference.h, included in second.c), its line in calls.h and calls.c, a file call_NAME.c and its place in
   `all_calls`; a buffer of a new kind by a line in `kinds`; faults that the comparison has to find by edits in faults/. */
#ifndef INPUTS_H
#define INPUTS_H

#include <stddef.h>
#include <stdint.h>

#include "calls.h"
#include "random.h"
#include "reference_grid.h"

enum buffer { GRID, WORK, TRIANGLE, LIST, STL, NUMBERS, WRITTEN, JOB, JOB_TRIANGLES, JOB_QUADS, TOTALS, LISTED, BUFFERS };
enum { POINT_ROOM = 40000, TRIANGLE_ROOM = 24, LIST_ROOM = 4 * 3 * 31 * 31 * 32 + 1000, MOST_COUNTS = 7 };
enum { MOST_STL = 40, STL_ROOM = 84 + 50 * (MOST_STL + 2), NUMBERS_ROOM = 9 * MOST_STL + 40, WRITTEN_ROOM = 84 + 100 * MOST_QUADS + 1000 };
enum { MOST_JOB = 40, BODY_ROOM = 36 * (MOST_JOB + 1), JOB_ROOM = 29 + MOST_POINTS + 2 * BODY_ROOM };
enum { MOST_LISTED = 400, LISTED_ROOM = 9 * (MOST_LISTED + 1), TOTALS_ROOM = MOST_BLOCKS + 100, MOST_CALLS = 32, MOST_ANSWERS = 32 };

/* What a lent buffer holds: its name, bytes an element, elements that there is room for, and whether it has one byte a point. */
struct kind {
    const char *name;
    size_t element, room;
    int a_point;
};

extern const struct kind kinds[BUFFERS];

/* What a call is handed. A buffer that it does not take has length 0. Lengths are in elements. */
struct input {
    const struct call *call;
    uint32_t level;
    int32_t e; /* the power of two of a call on a file */
    uint32_t bodies; /* the kinds of bodies that a job is to have */
    uint32_t low[3], high[3]; /* a box of points */
    int null; /* an empty buffer is lent as a null pointer */
    size_t len[BUFFERS];
    uint8_t *buffer[BUFFERS];
};

/* What a count holds before a call, which has to overwrite it. */
static const uint32_t untouched = 0xdeadbeef;

/* A call: its share of the inputs, its buffers and the answers it can give (bit b, bit a), its counts by name, how an input is made on
   top of random buffers, and how it is called. `also`, where it is set, tells a further fault that an input shows, or nothing. Where `every`
   is set, there are so many inputs more that are tried before the others, all of them in every run; `make_every` makes them by number. */
struct call {
    const char *name;
    uint32_t share, buffers, answers;
    int box; /* whether it takes a box of points */
    const char *counts[MOST_COUNTS];
    void (*make)(struct random *r, const struct measures *m, struct input *in);
    uint32_t (*run)(const struct calls *calls, const struct input *lent, uint64_t counts[MOST_COUNTS]);
    const char *(*also)(const struct input *in);
    uint64_t every;
    void (*make_every)(uint64_t number, struct input *in);
};

extern const struct call call_open, call_mark, call_mark_tree, call_patch, call_sign, call_surface, call_read_stl, call_write_stl, call_read_job,
    call_write_job, call_accept, call_masks, call_any_mark, call_totals_true, call_count_totals, call_mark_all;
extern const struct call *const all_calls[];
extern const size_t call_count;

static inline int takes(const struct call *call, enum buffer b)
{
    return call->buffers >> b & 1;
}

static inline size_t bytes_of(const struct input *in, enum buffer b)
{
    return in->len[b] * kinds[b].element;
}

/* The level's measures, or those of level 2 where the level is none. */
static inline struct measures measures_for(const struct input *in)
{
    return measures_of(known_level(in->level) ? in->level : 2);
}

/* The call's place in `all_calls`. */
size_t place_of(const struct call *call);

/* An input with room for every buffer. */
struct input new_input(void);

/* Makes the input that belongs to this state of the random numbers, of one call or of all. */
void make_input(struct random *r, const struct call *only, struct input *in);

/* Makes an input of a call by its number, below the call's `every`. */
void make_numbered(const struct call *call, uint64_t number, struct input *in);

/* Makes a grid of some kind, always one that is a grid. */
void make_grid(struct random *r, const struct measures *m, uint8_t *grid);

/* Sets signs in a grid, in place of those that it has: none, all, one, any, or those of its marks where it has some. */
void make_signs(struct random *r, const struct measures *m, uint32_t level, uint8_t *grid);

/* Turns the mark of one inner edge. */
void turn_one(struct random *r, const struct measures *m, uint8_t *grid);

/* Makes the buffer no grid, mostly by one byte. */
void spoil_grid(struct random *r, const struct measures *m, uint8_t *grid);

/* Makes a table of totals of any length and contents: mostly long enough, at times too short. */
void make_totals(struct random *r, const struct measures *m, struct input *in);

/* Makes the table's totals true for the grid, as far as it is long enough. */
void make_true(const struct measures *m, struct input *in);

/* Makes some totals of the table untrue: one, a few, all 0, or any. */
void make_untrue(struct random *r, const struct measures *m, struct input *in);

/* Makes bytes for the calls that judge no grid: with few marks or many, with values above 7 that are none, at the grid's end. */
void make_bytes(struct random *r, const struct measures *m, struct input *in);

/* Patches the input's grid by the reference, whatever its length. */
void patch_grid(struct input *in);

/* Makes nine coordinates in the level's range. */
void make_triangle(struct random *r, const struct measures *m, int32_t *triangle);

/* Makes a grid and a triangle, at times too few or too many numbers, at times bad ones. */
void make_marking(struct random *r, const struct measures *m, struct input *in);

/* Puts one coordinate out of range, by one or by very much. */
void spoil_triangle(struct random *r, const struct measures *m, int32_t *triangle);

#endif
