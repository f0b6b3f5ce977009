/* The sides of a list's quads, each corner followed by the next one and the fourth by the first. */
#include "turning.h"

#include <string.h>

#include "reference_grid.h"

/* How often a step goes from a cell up or down each axis. */
static uint8_t steps[MOST_CELLS][6];

/* The direction of a step from one cell to a neighbouring one, the other way round with its last bit turned; -1 for any other step. */
static int direction(int n, int from, int to)
{
    const int apart[3] = {1, n, n * n};
    if (from >= n * n * n || to >= n * n * n)
        return -1;
    for (int axis = X; axis <= Z; axis++) {
        int at = from / apart[axis] % n;
        if (to == from + apart[axis] && at + 1 < n)
            return 2 * axis;
        if (to == from - apart[axis] && at > 0)
            return 2 * axis + 1;
    }
    return -1;
}

const char *turns_wrongly(uint32_t level, const uint16_t *list, uint32_t quads)
{
    int n = measures_of(level).n;
    memset(steps, 0, (size_t)(n * n * n) * sizeof *steps);
    for (size_t s = 0; s < 4 * (size_t)quads; s++) {
        int from = list[s], to = list[s % 4 == 3 ? s - 3 : s + 1], way = direction(n, from, to);
        if (way < 0)
            return "a side joins cells that are no neighbours";
        if (++steps[from][way] > 2)
            return "a step occurs more than twice";
    }
    for (size_t s = 0; s < 4 * (size_t)quads; s++) {
        int from = list[s], to = list[s % 4 == 3 ? s - 3 : s + 1], way = direction(n, from, to);
        if (steps[from][way] != steps[to][way ^ 1])
            return "a step does not occur as often as the step back";
    }
    return NULL;
}
