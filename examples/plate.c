/* What an owner drops on the plate: a binary STL file is read, repaired, and written as STL again and as masks for the resin screen.

   build:  cc -o plate examples/plate.c $(pkg-config --cflags --libs omphirun)     (after ./install PREFIX)
   run:    ./plate models/hook.stl 13 hook_repaired.stl hook_masks.pbm

   E is the power of two that the file's coordinates are multiplied by, -20 to 20. They have to come to lie within the range of level 5,
   16,384 to 507,903; those of the hook lie between 20 and 42. MASKS gets a binary PBM picture for each layer, one behind another. */
#include <stdio.h>
#include <stdlib.h>

#include "omphirun.h"

#define LEVEL 5u

static uint8_t grid[OMPHIRUN_POINTS(LEVEL)], work[OMPHIRUN_POINTS(LEVEL)], stl[OMPHIRUN_STL(LEVEL)], masks[OMPHIRUN_MASKS(LEVEL)];
static uint16_t totals[OMPHIRUN_TOTALS(LEVEL)];

/* Stops at a refusal. */
static void done(const char *call, uint32_t number)
{
    if (number == OMPHIRUN_DONE)
        return;
    fprintf(stderr, "plate: %s is refused by %u\n", call, (unsigned)number);
    exit(1);
}

/* Stops where a file or memory fails. */
static void hold(int holds, const char *what)
{
    if (holds)
        return;
    fprintf(stderr, "plate: %s\n", what);
    exit(2);
}

/* All bytes of a file. */
static uint8_t *read_file(const char *name, size_t *len)
{
    FILE *in = fopen(name, "rb");
    long end = in && fseek(in, 0, SEEK_END) == 0 ? ftell(in) : -1;
    hold(end >= 0 && fseek(in, 0, SEEK_SET) == 0, "the file cannot be read");
    uint8_t *bytes = (uint8_t *)malloc((size_t)end + 1);
    hold(bytes != NULL, "there is no memory for the file");
    *len = fread(bytes, 1, (size_t)end, in);
    hold(*len == (size_t)end && fclose(in) == 0, "the file cannot be read");
    return bytes;
}

static void write_file(const char *name, const uint8_t *bytes, size_t len)
{
    FILE *out = fopen(name, "wb");
    hold(out != NULL && fwrite(bytes, 1, len, out) == len, "a file cannot be written");
    hold(fclose(out) == 0, "a file cannot be written");
}

int main(int words, char **word)
{
    hold(words == 5, "usage: plate FILE E REPAIRED MASKS");

    /* A triangle takes 50 bytes of the file and nine numbers of the list, so this is room enough for any. */
    size_t file_len, room, place, bytes;
    uint32_t triangles, axis, rims, flips, ones, threes;
    uint8_t *file = read_file(word[1], &file_len);
    room = 9 * (file_len / 50);
    int32_t *list = (int32_t *)malloc((room + 1) * sizeof *list);
    hold(list != NULL, "there is no memory for the triangles");
    int32_t e = (int32_t)strtol(word[2], NULL, 10);
    done("read_stl", omphirun_read_stl(file, file_len, e, list, room, &triangles, &axis));
    free(file);

    /* What read_stl gives is handed on as it is, all triangles in one call. */
    done("open", omphirun_open(LEVEL, grid, sizeof grid, totals, OMPHIRUN_TOTALS(LEVEL)));
    uint32_t number = omphirun_mark_all(LEVEL, grid, sizeof grid, list, 9 * (size_t)triangles, totals, OMPHIRUN_TOTALS(LEVEL), &place, &axis);
    if (number == OMPHIRUN_BELOW_RANGE || number == OMPHIRUN_ABOVE_RANGE)
        fprintf(stderr, "plate: %c of corner %c of triangle %lu is %ld, the range is %d to %d\n", "xyz"[axis], "ABC"[place % 9 / 3],
                (unsigned long)(place / 9 + 1), (long)list[place], OMPHIRUN_LOWEST(LEVEL), OMPHIRUN_HIGHEST(LEVEL));
    done("mark_all", number);
    free(list);

    done("patch", omphirun_patch(LEVEL, grid, sizeof grid, work, sizeof work, totals, OMPHIRUN_TOTALS(LEVEL), &rims, &flips, &ones, &threes));
    done("sign", omphirun_sign(LEVEL, grid, sizeof grid));
    printf("%lu triangles, %lu rims closed by %lu flips\n", (unsigned long)triangles, (unsigned long)rims, (unsigned long)flips);

    /* Both buffers are long enough for every result of the level. The repaired model lies where the file's lay, at the same scale. */
    done("write_stl", omphirun_write_stl(LEVEL, grid, sizeof grid, e, stl, sizeof stl, &bytes));
    write_file(word[3], stl, bytes);
    printf("%lu bytes of STL", (unsigned long)bytes);
    done("masks", omphirun_masks(LEVEL, grid, sizeof grid, masks, sizeof masks, &bytes));
    write_file(word[4], masks, bytes);
    printf(", %u masks\n", OMPHIRUN_CELLS(LEVEL) + 1);
    return 0;
}
