/* Random numbers that depend on the seed alone. */
#ifndef RANDOM_H
#define RANDOM_H

#include <stddef.h>
#include <stdint.h>
#include <string.h>

struct random {
    uint64_t state;
};

static inline uint64_t next(struct random *r)
{
    uint64_t z = r->state += 0x9e3779b97f4a7c15u;
    z = (z ^ z >> 30) * 0xbf58476d1ce4e5b9u;
    z = (z ^ z >> 27) * 0x94d049bb133111ebu;
    return z ^ z >> 31;
}

/* Any number from 0 up to `many`, which is not among them. */
static inline uint32_t below(struct random *r, uint32_t many)
{
    return (uint32_t)((next(r) >> 32) * many >> 32);
}

/* Any number from `low` to `high`, both among them. */
static inline int between(struct random *r, int low, int high)
{
    return low + (int)below(r, (uint32_t)(high - low + 1));
}

static inline int chance(struct random *r, uint32_t percent)
{
    return below(r, 100) < percent;
}

static inline void fill(struct random *r, void *bytes, size_t len)
{
    uint8_t *at = bytes;
    for (; len >= 8; at += 8, len -= 8) {
        uint64_t word = next(r);
        memcpy(at, &word, 8);
    }
    while (len--)
        *at++ = (uint8_t)next(r);
}

#endif
