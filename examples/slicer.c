/* Uses the repair stage as a slicer would: repairs a model, asks which layers its surface reaches, and says for each layer how much is cured.

   build:  (cd crates/stage && rt lib)
           cc -O2 -Wall -I include -o /tmp/slicer examples/slicer.c crates/stage/out/libstage.a
   run:    /tmp/slicer models/lampshade.bin
           /tmp/slicer models/lampshade.bin /tmp/lampshade.stl     (writes the surface as binary STL besides)

   The file is a stream as docs/FORMATS.md describes it: one level byte, then nine little-endian 32-bit numbers a triangle. */
#include <stdio.h>
#include <stdlib.h>

#include "omphirun.h"

enum { MOST_POINTS = OMPHIRUN_POINTS(5) };

static uint8_t grid[MOST_POINTS], work[MOST_POINTS];

/* The marks in each block of 4 x 4 x 4 points: open, mark and patch keep it, any_mark reads it. */
enum { MOST_TOTALS = OMPHIRUN_TOTALS(5) };
static uint16_t totals[MOST_TOTALS];

/* Stops at a refusal. */
static void done(const char *call, uint32_t number)
{
    if (number == OMPHIRUN_DONE)
        return;
    printf("%s refused by %u\n", call, (unsigned)number);
    exit(1);
}

static int32_t number_of(const uint8_t *b)
{
    return (int32_t)((uint32_t)b[0] | (uint32_t)b[1] << 8 | (uint32_t)b[2] << 16 | (uint32_t)b[3] << 24);
}

/* Writes the surface as binary STL, at the scale of the model: e is 0. */
static int write_file(const char *name, uint32_t level)
{
    size_t room = OMPHIRUN_STL(level), bytes;
    uint8_t *stl = malloc(room);
    FILE *out = stl ? fopen(name, "wb") : NULL;
    if (!out)
        return 0;
    done("write_stl", omphirun_write_stl(level, grid, sizeof grid, 0, stl, room, &bytes));
    printf("%zu bytes of STL\n", bytes);
    int whole = fwrite(stl, 1, bytes, out) == bytes;
    free(stl);
    return (fclose(out) == 0) & whole;
}

/* Says which layers the surface reaches, as a preview would ask: by boxes of four layers, whose blocks the table answers for. */
static void say_reach(uint32_t level)
{
    uint32_t n = OMPHIRUN_CELLS(level), any, reached = 0, first = 0, last = 0;
    for (uint32_t k = 0; k <= n; k += 4) {
        uint32_t top = k + 3 < n ? k + 3 : n;
        done("any_mark", omphirun_any_mark(level, grid, sizeof grid, totals, MOST_TOTALS, 0, 0, k, n, n, top, &any));
        if (any && !reached++)
            first = k;
        if (any)
            last = top;
    }
    if (reached)
        printf("marks in layers %u to %u, by fours\n", (unsigned)first, (unsigned)last);
}

int main(int words, char **word)
{
    FILE *model = words == 2 || words == 3 ? fopen(word[1], "rb") : NULL;
    int level = model ? fgetc(model) : EOF;
    if (level == EOF) {
        fprintf(stderr, "usage: slicer FILE [STL]\n");
        return 2;
    }

    /* The triangles go into the grid one by one; none has to be kept. */
    uint8_t record[36];
    size_t got;
    unsigned triangles = 0;
    done("open", omphirun_open((uint32_t)level, grid, sizeof grid, totals, MOST_TOTALS));
    while ((got = fread(record, 1, sizeof record, model)) > 0) {
        int32_t triangle[9];
        for (size_t c = 0; c < got / 4; c++)
            triangle[c] = number_of(record + 4 * c);
        uint32_t place, axis;
        uint32_t number = omphirun_mark((uint32_t)level, grid, sizeof grid, triangle, got / 4, totals, MOST_TOTALS, &place, &axis);
        triangles++;
        if (number == OMPHIRUN_BELOW_RANGE || number == OMPHIRUN_ABOVE_RANGE)
            printf("triangle %u: %c of corner %c is %d, %s the range\n", triangles, "xyz"[axis], "ABC"[place / 3], (int)triangle[place],
                   number == OMPHIRUN_BELOW_RANGE ? "below" : "above");
        done("mark", number);
    }
    fclose(model);

    uint32_t rims, flips, ones, threes, quads;
    done("patch", omphirun_patch((uint32_t)level, grid, sizeof grid, work, sizeof work, totals, MOST_TOTALS, &rims, &flips, &ones, &threes));
    done("sign", omphirun_sign((uint32_t)level, grid, sizeof grid));
    printf("%u rims closed by %u flips\n", (unsigned)rims, (unsigned)flips);
    printf("%u faces with one mark, where the model lacks faces; %u with three, where extra walls meet\n", (unsigned)ones, (unsigned)threes);

    say_reach((uint32_t)level);

    /* A layer of points is a run of (n+1)^2 bytes. */
    size_t row = OMPHIRUN_CELLS(level) + 1, layer = row * row;
    for (size_t k = 0; k < row; k++) {
        unsigned cured = 0;
        for (size_t p = k * layer; p < (k + 1) * layer; p++)
            cured += (grid[p] & OMPHIRUN_INSIDE) != 0;
        if (cured > 0)
            printf("layer %zu: %u points\n", k, cured);
    }

    /* Long enough for every surface of the level, so that the call is never refused by 8. */
    size_t room = OMPHIRUN_LIST(level);
    uint16_t *list = malloc(room * sizeof *list);
    if (list == NULL)
        return 2;
    done("surface", omphirun_surface((uint32_t)level, grid, sizeof grid, list, room, &quads));
    printf("%u quads\n", (unsigned)quads);
    if (quads > 0)
        printf("the first joins cells %u %u %u %u\n", list[0], list[1], list[2], list[3]);
    free(list);
    return words == 3 && !write_file(word[2], (uint32_t)level) ? 2 : 0;
}
