/* Grids that are made to be hard to patch. Each function fills the level's points anew. */
#ifndef HOSTILE_H
#define HOSTILE_H

#include "../tests/reference_grid.h"

struct hostile {
    const char *name;
    void (*make)(const struct measures *m, uint8_t *grid);
};

extern const struct hostile hostile_grids[];
extern const int hostile_count;

#endif
