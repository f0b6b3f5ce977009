/* Whether a surface turns one way, told from its list of quads alone. */
#ifndef TURNING_H
#define TURNING_H

#include <stdint.h>

/* Tells what is wrong with the sides of the quads, or nothing: each side joins neighbouring cells, each step along the sides occurs as often
   as the step back, and each side is shared by two or four quads. */
const char *turns_wrongly(uint32_t level, const uint16_t *list, uint32_t quads);

#endif
