/* Job files, M-112 of document 02, plainly: the table of contents is read into a table, and each sentence of the refusals is a loop of its
   own over it. */
#include <string.h>

#include "reference.h"
#include "reference_grid.h"

enum { GRID_BODY = 1, TRIANGLE_BODY, QUAD_BODY, MOST_BODIES = 3 };

/* A body: its kind, and its offset and length in bytes. */
struct body {
    uint32_t kind;
    uint64_t offset, length;
};

static uint32_t read_word(const uint8_t *bytes)
{
    return bytes[0] | (uint32_t)bytes[1] << 8 | (uint32_t)bytes[2] << 16 | (uint32_t)bytes[3] << 24;
}

static void write_word(uint8_t *bytes, uint64_t word)
{
    for (int b = 0; b < 4; b++)
        bytes[b] = (uint8_t)(word >> 8 * b);
}

static uint64_t table_size(uint64_t count)
{
    return 2 + 9 * count;
}

/* Grid: length P; triangles: a multiple of 36; quads: a multiple of 8. */
static int length_fits(const struct measures *m, const struct body *body)
{
    if (body->kind == GRID_BODY)
        return body->length == (uint64_t)m->points;
    return body->length % (body->kind == TRIANGLE_BODY ? 36 : 8) == 0;
}

/* In rising order of kind, each kind at most once. */
static int kinds_rise(const struct body *bodies, uint32_t count)
{
    for (uint32_t b = 0; b < count; b++)
        if (bodies[b].kind < GRID_BODY || bodies[b].kind > QUAD_BODY || (b > 0 && bodies[b].kind <= bodies[b - 1].kind))
            return 0;
    return 1;
}

/* Without gaps, up to the file's end. */
static int places_fit(const struct measures *m, const struct body *bodies, uint32_t count, uint64_t file_len)
{
    uint64_t next = table_size(count);
    for (uint32_t b = 0; b < count; b++) {
        if (bodies[b].offset != next || !length_fits(m, &bodies[b]))
            return 0;
        next += bodies[b].length;
    }
    return next == file_len;
}

uint32_t reference_read_job(const uint8_t *file, size_t file_len, uint32_t *level, uint32_t *kinds, uint32_t *grid_at,
                            uint32_t *triangles_at, uint32_t *triangles_len, uint32_t *quads_at, uint32_t *quads_len)
{
    struct body bodies[MOST_BODIES];
    uint32_t unused, *at[] = {grid_at, triangles_at, quads_at}, *len[] = {&unused, triangles_len, quads_len};
    *level = *kinds = *grid_at = *triangles_at = *triangles_len = *quads_at = *quads_len = 0;
    if (file_len == 0)
        return 18;
    if (!known_level(file[0]))
        return 1;
    if (file_len < 2 || file[1] > MOST_BODIES || file_len < table_size(file[1]))
        return 18;
    struct measures m = measures_of(file[0]);
    uint32_t count = file[1];
    for (uint32_t b = 0; b < count; b++) {
        const uint8_t *line = file + 2 + 9 * b;
        bodies[b] = (struct body){line[0], read_word(line + 1), read_word(line + 5)};
    }
    if (!kinds_rise(bodies, count))
        return 19;
    if (!places_fit(&m, bodies, count, file_len))
        return 20;
    if (count > 0 && bodies[0].kind == GRID_BODY && !is_grid(&m, file + bodies[0].offset))
        return 5;
    *level = file[0];
    for (uint32_t b = 0; b < count; b++) {
        *kinds += 1u << (bodies[b].kind - 1);
        *at[bodies[b].kind - 1] = (uint32_t)bodies[b].offset;
        *len[bodies[b].kind - 1] = (uint32_t)bodies[b].length;
    }
    return 0;
}

uint32_t reference_write_job(uint32_t level, uint32_t kinds, const uint8_t *grid, size_t grid_len, const uint8_t *triangles,
                             size_t triangles_len, const uint8_t *quads, size_t quads_len, uint8_t *file, size_t file_len, size_t *bytes)
{
    const uint8_t *lent[] = {grid, triangles, quads};
    const size_t lengths[] = {grid_len, triangles_len, quads_len};
    struct body bodies[MOST_BODIES];
    uint32_t count = 0;
    *bytes = 0;
    if (!known_level(level))
        return 1;
    if (kinds > 7)
        return 19;
    struct measures m = measures_of(level);
    for (uint32_t k = 0; k < MOST_BODIES; k++)
        if (kinds >> k & 1)
            bodies[count++] = (struct body){k + 1, 0, lengths[k]};
    uint64_t next = table_size(count);
    for (uint32_t b = 0; b < count; b++) {
        bodies[b].offset = next;
        if (next > UINT32_MAX || bodies[b].length > UINT32_MAX || !length_fits(&m, &bodies[b]))
            return 20;
        next += bodies[b].length;
    }
    if ((kinds & 1) && !is_grid(&m, grid))
        return 5;
    if (file_len < next)
        return 8;
    file[0] = (uint8_t)level;
    file[1] = (uint8_t)count;
    for (uint32_t b = 0; b < count; b++) {
        uint8_t *line = file + 2 + 9 * b;
        line[0] = (uint8_t)bodies[b].kind;
        write_word(line + 1, bodies[b].offset);
        write_word(line + 5, bodies[b].length);
        if (bodies[b].length > 0)
            memcpy(file + bodies[b].offset, lent[bodies[b].kind - 1], bodies[b].length);
    }
    *bytes = next;
    return 0;
}
