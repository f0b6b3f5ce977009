/* Binary STL read as triangles, M-100 of document 02, plainly and in doubles: a float times a power of two from 2^-20 to 2^20 is
   exact in a double. So is the half that rounding adds, or else the sum lies well between two whole numbers, as all the float did. */
#include <string.h>

#include "reference.h"

enum { STL_HEAD = 84, STL_TRIANGLE = 50, STL_NORMAL = 12, STL_VERTEX = 12 };

static uint32_t little_endian(const uint8_t *bytes)
{
    return bytes[0] | (uint32_t)bytes[1] << 8 | (uint32_t)bytes[2] << 16 | (uint32_t)bytes[3] << 24;
}

static double float_at(const uint8_t *bytes)
{
    uint32_t bits = little_endian(bytes);
    float number;
    memcpy(&number, &bits, sizeof number);
    return number;
}

static double two_to(int e)
{
    double power = 1;
    for (; e > 0; e--)
        power *= 2;
    for (; e < 0; e++)
        power /= 2;
    return power;
}

/* The fault of one vertex: 12 with the first axis whose number is not finite, else 13 when a result is beyond 2^30 in size. */
static uint32_t vertex_fault(const uint8_t *vertex, double power, uint32_t *axis)
{
    for (uint32_t a = 0; a < 3; a++)
        if (!__builtin_isfinite(float_at(vertex + 4 * a)))
            return *axis = a, 12;
    for (int a = 0; a < 3; a++)
        if (__builtin_fabs(float_at(vertex + 4 * a) * power) >= 1073741824.5)
            return 13;
    return 0;
}

/* To the nearest whole number, halves away from zero. */
static int32_t nearest(double x)
{
    return (int32_t)(x < 0 ? x - 0.5 : x + 0.5);
}

uint32_t reference_read_stl(const uint8_t *file, size_t file_len, int32_t e, int32_t *list, size_t list_len, uint32_t *triangles,
                            uint32_t *axis)
{
    *triangles = *axis = 0;
    if (e < -20 || e > 20)
        return 14;
    uint64_t count = file_len < STL_HEAD ? 0 : little_endian(file + 80);
    if (file_len < STL_HEAD || file_len - STL_HEAD != STL_TRIANGLE * count)
        return file_len >= 5 && !memcmp(file, "solid", 5) ? 11 : 10;
    if (list_len < 9 * count)
        return 8;
    double power = two_to(e);
    for (uint64_t v = 0; v < 3 * count; v++) {
        const uint8_t *triangle = file + STL_HEAD + STL_TRIANGLE * (v / 3);
        uint32_t fault = vertex_fault(triangle + STL_NORMAL + STL_VERTEX * (v % 3), power, axis);
        if (fault)
            return fault;
    }
    for (uint64_t t = 0; t < count; t++)
        for (int c = 0; c < 9; c++)
            list[9 * t + c] = nearest(float_at(file + STL_HEAD + STL_TRIANGLE * t + STL_NORMAL + 4 * c) * power);
    *triangles = (uint32_t)count;
    return 0;
}
