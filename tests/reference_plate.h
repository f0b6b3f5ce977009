/* What the program `plate` prints, by the reference. */
#ifndef REFERENCE_PLATE_H
#define REFERENCE_PLATE_H

#include <stddef.h>
#include <stdint.h>
#include <stdio.h>

/* Writes what `plate` prints for its word, a null pointer where there is none, and for a file's bytes, a null pointer for what is no file. */
void reference_plate(const char *word, const uint8_t *file, size_t file_len, FILE *out);

#endif
