/* The reference as a program: standard input to standard output, as `repair` does it. */
#include <stdlib.h>

#include "reference.h"

int main(void)
{
    size_t room = 1 << 16, len = 0, got;
    uint8_t *stream = malloc(room);
    while (stream && (got = fread(stream + len, 1, room - len, stdin)) > 0)
        if ((len += got) == room)
            stream = realloc(stream, room *= 2);
    if (!stream) {
        fputs("reference: no memory for the stream\n", stderr);
        return 2;
    }
    reference_repair(stream, len, stdout);
    return fflush(stdout) ? 2 : 0;
}
