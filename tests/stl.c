/* Reads a file by the library and prints what came of it: the number, the triangles and the axis, then nine numbers a triangle.
   usage: stl FILE E */
#include <stdio.h>
#include <stdlib.h>

#include "../include/omphirun.h"

enum { FILE_ROOM = 1 << 20, LIST_ROOM = 1 << 18 };

int main(int argc, char **argv)
{
    static uint8_t file[FILE_ROOM];
    static int32_t list[LIST_ROOM];
    uint32_t triangles, axis, number;
    FILE *in = argc == 3 ? fopen(argv[1], "rb") : NULL;
    if (!in)
        return fputs("usage: stl FILE E\n", stderr), 2;
    size_t len = fread(file, 1, FILE_ROOM, in);
    number = omphirun_read_stl(file, len, (int32_t)strtol(argv[2], NULL, 10), list, LIST_ROOM, &triangles, &axis);
    printf("%u %u %u\n", (unsigned)number, (unsigned)triangles, (unsigned)axis);
    for (uint32_t c = 0; c < 9 * triangles; c++)
        printf("%d%c", (int)list[c], c % 9 == 8 ? '\n' : ' ');
    return ferror(in) || fclose(in);
}
