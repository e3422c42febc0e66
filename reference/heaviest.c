/* The image with most writes: one packet of CMD, which takes every word that the sync word and its headers leave. */
#include "reference.h"

#include <string.h>

enum { SHORTEST = 12, MOST_OF_TYPE1 = 2047, CMD_HEADER = 0x30008000, TYPE2_HEADER = 0x50000000, DESYNC = 0x0D };

/* A second header is worth its word only where the first cannot count all the others. */
uint32_t reference_most_writes(size_t n, size_t *writes)
{
    *writes = 0;
    if (n < SHORTEST || n > REFERENCE_CHIP_MAX)
        return TEALSETTLE_REFUSED_BAD_HEAVIEST_LENGTH;
    size_t after_one_header = n / 4 - 2;
    *writes = after_one_header <= MOST_OF_TYPE1 ? after_one_header : after_one_header - 1;
    return 0;
}

uint32_t reference_heaviest_image(size_t n, uint8_t *out, size_t out_length, size_t *writes)
{
    uint32_t number = reference_most_writes(n, writes);
    if (number != 0)
        return number;
    if (out_length < n)
        return *writes = 0, TEALSETTLE_REFUSED_NO_ROOM;
    size_t end = n & ~(size_t)3;
    memset(out, 0, end - 1);
    reference_put_word(out, 0xAA995566u);
    if (end - 4 * *writes == 8)
        reference_put_word(out + 4, CMD_HEADER + (uint32_t)*writes);
    else
        reference_put_word(out + 4, CMD_HEADER), reference_put_word(out + 8, TYPE2_HEADER + (uint32_t)*writes);
    out[end - 1] = DESYNC;
    memset(out + end, 0xFF, n - end);
    return 0;
}
