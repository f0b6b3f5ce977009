/* Prints an input so that a person can rebuild it. */
#include <stdio.h>

#include "shrink.h"

enum { MOST_SHOWN = 60, SHOWN_WHOLE = 24 };

/* Marks by name, and the points inside; a byte with more than these, or behind P, by its index. */
static void print_points(const struct input *in, int b)
{
    struct measures m = measures_for(in);
    const uint8_t *bytes = in->buffer[b];
    int marks = b == GRID;
    size_t shown = 0, left = 0;
    printf("  %s, %zu bytes, not 0:", kinds[b].name, in->len[b]);
    for (size_t p = 0; p < in->len[b]; p++) {
        int at[3];
        for (int d = X; d <= Z; d++)
            at[d] = (int)p / m.step[d] % (m.n + 1);
        if (bytes[p] == 0)
            continue;
        if (shown++ >= MOST_SHOWN)
            left++;
        else if (p >= (size_t)m.points || (marks && bytes[p] > (MARKS | INSIDE)))
            printf(" [%zu]=%u", p, bytes[p]);
        else if (!marks)
            printf(" (%d,%d,%d)=%u", at[X], at[Y], at[Z], bytes[p]);
        else {
            for (int axis = X; axis <= Z; axis++)
                if (has(bytes, axis, (int)p))
                    printf(" %c(%d,%d,%d)", "xyz"[axis], at[X], at[Y], at[Z]);
            if (is_inside(bytes, (int)p))
                printf(" inside(%d,%d,%d)", at[X], at[Y], at[Z]);
        }
    }
    if (left)
        printf(" and %zu more", left);
    printf(shown ? "\n" : " none\n");
}

/* An element's value, by its size. */
static long element(const struct input *in, int b, size_t e)
{
    const uint8_t *bytes = in->buffer[b];
    size_t size = kinds[b].element;
    return size == sizeof(int32_t) ? ((int32_t *)bytes)[e] : size == sizeof(uint16_t) ? ((uint16_t *)bytes)[e] : bytes[e];
}

/* All elements of a short buffer; those of a longer one that are not 0, by index. */
static void print_elements(const struct input *in, int b)
{
    int all = in->len[b] <= SHOWN_WHOLE;
    size_t shown = 0;
    printf("  %s, %zu elements%s:", kinds[b].name, in->len[b], all ? "" : ", not 0");
    for (size_t e = 0; e < in->len[b]; e++)
        if (all)
            printf(" %ld", element(in, b, e));
        else if (element(in, b, e) && shown++ < MOST_SHOWN)
            printf(" [%zu]=%ld", e, element(in, b, e));
    if (shown > MOST_SHOWN)
        printf(" and %zu more", shown - MOST_SHOWN);
    printf("\n");
}

void print_input(const struct input *in)
{
    printf("  %s, level %u, e %d, bodies %u\n", in->call->name, in->level, in->e, in->bodies);
    if (in->call->box)
        printf("  box from (%u,%u,%u) to (%u,%u,%u)\n", in->low[X], in->low[Y], in->low[Z], in->high[X], in->high[Y], in->high[Z]);
    for (int b = 0; b < BUFFERS; b++)
        if (takes(in->call, b) && in->len[b] == 0 && in->null)
            printf("  %s, null\n", kinds[b].name);
        else if (takes(in->call, b))
            (kinds[b].a_point ? print_points : print_elements)(in, b);
}
