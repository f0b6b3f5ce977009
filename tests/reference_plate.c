/* The program `plate`, plainly: an owner's binary STL file measured, placed, marked, repaired and written back in its own place and units. From
   documents 01 and 02, the rule of fit in docs/DECISIONS.md and the program's output in docs/FORMATS.md. The rule goes over all coordinates for
   each e, in doubles: a float times a power of two from 2^-20 to 2^20 is exact in a double, and so is its fraction. */
#include <math.h>
#include <stdlib.h>
#include <string.h>

#include "reference.h"
#include "reference_grid.h"
#include "reference_plate.h"

enum { STL_HEAD = 84, STL_RECORD = 50, STL_VERTICES = 12, MOST_E = 20, LIST_QUADS = 32768 };

static const double NEAR = 1073741824; /* 2^30: no result may be beyond it in size */

/* What the word asks for. */
struct asked {
    uint32_t level;
    char mode, want; /* f fit, c centre, k keep; r repair, j job */
    int e;
};

static int is_digit(char c)
{
    return '0' <= c && c <= '9';
}

/* Five characters, LMEEW; the two digits of e stand there also where e is chosen. */
static int understood(const char *word, struct asked *ask)
{
    if (!word || strlen(word) != 5)
        return 0;
    *ask = (struct asked){(uint32_t)(word[0] - '0'), word[1], word[4], 0};
    if (word[0] < '2' || word[0] > '5' || !memchr("fck", word[1], 3) || !memchr("rj", word[4], 2))
        return 0;
    if (!is_digit(word[2]) || !is_digit(word[3]))
        return 0;
    ask->e = 10 * (word[2] - '0') + (word[3] - '0') - MOST_E;
    return ask->e <= MOST_E;
}

/* A file of the right length: the number of its triangles, and coordinate c, 0 to 8, of triangle t as the double that its float is. */
struct model {
    const uint8_t *file;
    uint64_t triangles;
};

static uint32_t word_at(const uint8_t *b)
{
    return b[0] | (uint32_t)b[1] << 8 | (uint32_t)b[2] << 16 | (uint32_t)b[3] << 24;
}

static double coordinate(const struct model *model, uint64_t t, int c)
{
    uint32_t bits = word_at(model->file + STL_HEAD + STL_RECORD * t + STL_VERTICES + 4 * c);
    float number;
    memcpy(&number, &bits, sizeof number);
    return number;
}

/* The number times 2^e to the nearest whole number, halves away from zero; still a double, since it may be large. From 2^52 on all are whole. */
static double result(double number, int e)
{
    double scaled = ldexp(number, e);
    if (fabs(scaled) >= 4503599627370496)
        return scaled;
    double whole = (double)(int64_t)scaled, rest = scaled - whole;
    return rest >= 0.5 ? whole + 1 : rest <= -0.5 ? whole - 1 : whole;
}

static double lesser(double a, double b)
{
    return a < b ? a : b;
}

static double greater(double a, double b)
{
    return a > b ? a : b;
}

/* Least and greatest result on each axis. */
struct extent {
    double least[3], greatest[3];
};

static struct extent measure(const struct model *model, int e)
{
    struct extent x = {{INFINITY, INFINITY, INFINITY}, {-INFINITY, -INFINITY, -INFINITY}};
    for (uint64_t t = 0; t < model->triangles; t++)
        for (int c = 0; c < 9; c++) {
            double r = result(coordinate(model, t, c), e);
            x.least[c % 3] = lesser(x.least[c % 3], r);
            x.greatest[c % 3] = greater(x.greatest[c % 3], r);
        }
    return x;
}

/* No result is beyond 2^30. */
static int all_near(const struct extent *x)
{
    for (int axis = X; axis <= Z; axis++)
        if (x->least[axis] < -NEAR || x->greatest[axis] > NEAR)
            return 0;
    return 1;
}

/* The rule of fit: no result is beyond 2^30, and on each axis the extent is no wider than the level's range. */
static int fits(const struct measures *m, const struct extent *x)
{
    for (int axis = X; axis <= Z; axis++)
        if (x->greatest[axis] - x->least[axis] > highest(m) - lowest(m))
            return 0;
    return all_near(x);
}

/* Half of the free room, rounded down, lies below the model. */
static int64_t shift_on(const struct extent *x, int axis)
{
    int64_t least = (int64_t)x->least[axis], greatest = (int64_t)x->greatest[axis];
    return (MODEL_MOST - (greatest - least)) / 2 - least;
}

static int all_finite(const struct model *model)
{
    for (uint64_t t = 0; t < model->triangles; t++)
        for (int c = 0; c < 9; c++)
            if (!isfinite(coordinate(model, t, c)))
                return 0;
    return 1;
}

/* Chooses e and shift; answers what is printed where the model cannot stand so, or a null pointer. */
static const char *place(const struct model *model, const struct measures *m, struct asked *ask, struct extent *x, int64_t shift[3])
{
    memset(shift, 0, 3 * sizeof *shift);
    if (ask->mode == 'f')
        for (ask->e = MOST_E; ask->e >= -MOST_E; ask->e--)
            if (*x = measure(model, ask->e), fits(m, x))
                break;
    if (ask->e < -MOST_E)
        return "too large\n";
    *x = measure(model, ask->e);
    if (ask->mode == 'k')
        return all_near(x) ? NULL : "refused 13\n";
    if (!fits(m, x))
        return "too large\n";
    for (int axis = X; axis <= Z; axis++)
        shift[axis] = shift_on(x, axis);
    return NULL;
}

/* Triangle t as it is placed; answers 0, or the number by which mark refuses it. */
static uint32_t placed(const struct model *model, const struct measures *m, int e, const int64_t shift[3], uint64_t t, int32_t triangle[9])
{
    for (int c = 0; c < 9; c++)
        triangle[c] = (int32_t)((int64_t)result(coordinate(model, t, c), e) + shift[c % 3]);
    for (int c = 0; c < 9; c++) {
        if (triangle[c] < lowest(m))
            return 4;
        if (triangle[c] > highest(m))
            return 24;
    }
    return 0;
}

static void put_word(uint32_t word, FILE *out)
{
    for (int b = 0; b < 4; b++)
        putc((int)(word >> 8 * b & 255), out);
}

/* Faces with their lowest corner at (i,j,k) and so many marks; those that jut out of the grid are none. */
static int faces_with(const struct measures *m, const uint8_t *grid, int marks, const int at[3])
{
    int p = at[X] + m->step[Y] * at[Y] + m->step[Z] * at[Z], count = 0;
    for (int axis = X; axis <= Z; axis++)
        if (at[earlier(axis)] < m->n && at[later(axis)] < m->n)
            count += face_marks(m, grid, axis, p) == marks;
    return count;
}

static char gap_letter(const struct measures *m, const uint8_t *grid, const int at[3])
{
    int ones = faces_with(m, grid, 1, at), threes = faces_with(m, grid, 3, at);
    return ones ? threes ? '*' : 'o' : threes ? 'x' : '-';
}

static char layer_letter(const struct measures *m, const uint8_t *grid, const int at[3])
{
    return is_inside(grid, at[X] + m->step[Y] * at[Y] + m->step[Z] * at[Z]) ? '#' : '.';
}

/* A line of characters for each y, an empty line behind each layer. */
static void draw(const struct measures *m, const uint8_t *grid, char (*letter)(const struct measures *, const uint8_t *, const int[3]), FILE *out)
{
    for (int k = 0; k <= m->n; k++, putc('\n', out))
        for (int j = 0; j <= m->n; j++, putc('\n', out))
            for (int i = 0; i <= m->n; i++)
                putc(letter(m, grid, (const int[3]){i, j, k}), out);
}

/* The surface in the model's own place and units: written with e 0 each coordinate is (c-1)/2, exactly; from it the shift is taken away and the
   rest multiplied by 2^-e, which a double holds; the cast gives the nearest float. */
static void put_surface(uint32_t level, const uint8_t *grid, int e, const int64_t shift[3], FILE *out)
{
    static uint8_t file[STL_HEAD + 2 * STL_RECORD * MOST_QUADS];
    size_t bytes;
    if (reference_write_stl(level, grid, MOST_POINTS, 0, file, sizeof file, &bytes))
        abort();
    struct model own = {file, (bytes - STL_HEAD) / STL_RECORD};
    for (uint64_t t = 0; t < own.triangles; t++)
        for (int c = 0; c < 9; c++) {
            float back = (float)ldexp(coordinate(&own, t, c) - (double)shift[c % 3], -e);
            uint32_t bits;
            memcpy(&bits, &back, sizeof bits);
            for (int b = 0; b < 4; b++)
                file[STL_HEAD + STL_RECORD * t + STL_VERTICES + 4 * (size_t)c + b] = (uint8_t)(bits >> 8 * b);
        }
    fwrite(file, 1, bytes, out);
}

/* A model that is marked and repaired: the grid before the patch and after sign, the quads, and what patch counts. */
struct repaired {
    uint8_t grid[MOST_POINTS], before[MOST_POINTS];
    uint16_t list[4 * LIST_QUADS];
    uint32_t rims, flips, ones, threes, quads;
};

/* Marks the model, patches, signs and surfaces; answers 0, or the number of the first call that refuses. */
static uint32_t mend(const struct model *model, const struct asked *ask, const int64_t shift[3], struct repaired *r)
{
    static uint8_t work[MOST_POINTS];
    static uint16_t totals[MOST_BLOCKS];
    struct measures m = measures_of(ask->level);
    uint32_t refused = reference_open(ask->level, r->grid, sizeof r->grid, totals, MOST_BLOCKS);
    for (uint64_t t = 0; t < model->triangles && !refused; t++) {
        int32_t triangle[9];
        refused = placed(model, &m, ask->e, shift, t, triangle);
        if (!refused)
            reference_add_marks(&m, r->grid, triangle);
    }
    memcpy(r->before, r->grid, sizeof r->grid);
    if (!refused)
        refused = reference_patch(ask->level, r->grid, sizeof r->grid, work, sizeof work, totals, MOST_BLOCKS, &r->rims, &r->flips, &r->ones, &r->threes);
    if (!refused)
        refused = reference_sign(ask->level, r->grid, sizeof r->grid);
    if (!refused)
        refused = reference_surface(ask->level, r->grid, sizeof r->grid, r->list, 4 * LIST_QUADS, &r->quads);
    return refused;
}

static void put_quads(const struct repaired *r, FILE *out)
{
    for (uint32_t q = 0; q < 2 * r->quads; q++)
        put_word(r->list[2 * q] | (uint32_t)r->list[2 * q + 1] << 16, out);
}

/* Repairs the model; writes all six parts, or one line. */
static void repair(const struct model *model, const struct asked *ask, const struct extent *x, const int64_t shift[3], FILE *out)
{
    static struct repaired r;
    static uint8_t masks[33 * (9 + 33 * 5)];
    struct measures m = measures_of(ask->level);
    uint32_t inside = 0, refused = mend(model, ask, shift, &r);
    size_t bytes;
    if (!refused)
        refused = reference_masks(ask->level, r.grid, sizeof r.grid, masks, sizeof masks, &bytes);
    if (refused) {
        fprintf(out, "refused %u\n", (unsigned)refused);
        return;
    }
    for (int p = 0; p < m.points; p++)
        inside += (uint32_t)is_inside(r.grid, p);
    fprintf(out, "level %u triangles %llu\n", (unsigned)ask->level, (unsigned long long)model->triangles);
    fprintf(out, "e %d shift %lld %lld %lld\n", ask->e, (long long)shift[X], (long long)shift[Y], (long long)shift[Z]);
    fprintf(out, "least %lld %lld %lld ", (long long)x->least[X], (long long)x->least[Y], (long long)x->least[Z]);
    fprintf(out, "greatest %lld %lld %lld\n", (long long)x->greatest[X], (long long)x->greatest[Y], (long long)x->greatest[Z]);
    fprintf(out, "rims %u flips %u inside %u quads %u\n", (unsigned)r.rims, (unsigned)r.flips, (unsigned)inside, (unsigned)r.quads);
    fprintf(out, "ones %u threes %u\n", (unsigned)r.ones, (unsigned)r.threes);
    draw(&m, r.before, gap_letter, out);
    draw(&m, r.grid, layer_letter, out);
    fwrite(masks, 1, bytes, out);
    put_quads(&r, out);
    put_surface(ask->level, r.grid, ask->e, shift, out);
}

/* A line of a job's table of contents: kind, offset, length. Answers where the next body begins. */
static uint64_t put_line(int kind, uint64_t offset, uint64_t length, FILE *out)
{
    putc(kind, out);
    put_word((uint32_t)offset, out);
    put_word((uint32_t)length, out);
    return offset + length;
}

/* The job of the placed triangles, M-112 of document 02: level byte, count, table of contents, then the grid after sign, the triangles and the
   quads. An offset that 32 bits do not hold is 20; none can be so but the last. */
static void job(const struct model *model, const struct asked *ask, const int64_t shift[3], FILE *out)
{
    static struct repaired r;
    struct measures m = measures_of(ask->level);
    uint64_t next = 2 + 3 * 9;
    uint32_t refused = mend(model, ask, shift, &r);
    if (!refused && next + (uint64_t)m.points + 36 * model->triangles > UINT32_MAX)
        refused = 20;
    if (refused) {
        fprintf(out, "refused %u\n", (unsigned)refused);
        return;
    }
    putc((int)ask->level, out);
    putc(3, out);
    next = put_line(1, next, (uint64_t)m.points, out);
    next = put_line(2, next, 36 * model->triangles, out);
    put_line(3, next, 8 * r.quads, out);
    fwrite(r.grid, 1, (size_t)m.points, out);
    for (uint64_t t = 0; t < model->triangles; t++) {
        int32_t triangle[9];
        placed(model, &m, ask->e, shift, t, triangle);
        for (int c = 0; c < 9; c++)
            put_word((uint32_t)triangle[c], out);
    }
    put_quads(&r, out);
}

void reference_plate(const char *word, const uint8_t *file, size_t file_len, FILE *out)
{
    struct asked ask;
    struct extent x;
    int64_t shift[3];
    struct model model = {file, file_len < STL_HEAD ? 0 : word_at(file + 80)};
    if (!understood(word, &ask))
        fputs("bad word\n", out);
    else if (!file)
        fputs("not a file\n", out);
    else if (file_len < STL_HEAD || file_len - STL_HEAD != STL_RECORD * model.triangles)
        fputs(file_len >= 5 && !memcmp(file, "solid", 5) ? "refused 11\n" : "refused 10\n", out);
    else if (!all_finite(&model))
        fputs("refused 12\n", out);
    else if (model.triangles == 0)
        fputs("no triangles\n", out);
    else {
        struct measures m = measures_of(ask.level);
        const char *why = place(&model, &m, &ask, &x, shift);
        if (why)
            fputs(why, out);
        else if (ask.want == 'j')
            job(&model, &ask, shift, out);
        else
            repair(&model, &ask, &x, shift, out);
    }
}
