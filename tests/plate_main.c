/* The reference of `plate` as a program: a word, standard input and standard output, as `plate` has them. */
#include <stdlib.h>

#include "reference_plate.h"

/* The bytes of standard input from its start, or a null pointer when it cannot be read from there. */
static uint8_t *whole_file(size_t *len)
{
    long end;
    if (fseek(stdin, 0, SEEK_END) || (end = ftell(stdin)) < 0 || fseek(stdin, 0, SEEK_SET))
        return NULL;
    uint8_t *file = malloc((size_t)end + 1);
    *len = file ? fread(file, 1, (size_t)end, stdin) : 0;
    return file;
}

int main(int words, char **word)
{
    size_t len = 0;
    uint8_t *file = whole_file(&len);
    reference_plate(words > 1 ? word[1] : NULL, file, len, stdout);
    return fflush(stdout) ? 2 : 0;
}
