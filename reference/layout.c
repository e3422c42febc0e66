/* The builder of a printer's first chip, and where a chip says that its update area begins. */
#include "reference.h"

#include <string.h>

/* Segment 1: WBSTAR gets the update area's place, and IPROG jumps there. A reader whose switch is OFF never
 * synchronises before it, and passes it by. */
enum { JUMP_WORDS = 5 };

static void put_jump(uint8_t *segment, size_t update)
{
    const uint32_t words[JUMP_WORDS] = {0x30020001u, (uint32_t)update, 0x30008001u, 0x0000000Fu, 0x20000000u};
    for (size_t i = 0; i < JUMP_WORDS; i++)
        reference_put_word(segment + 4 * i, words[i]);
}

uint32_t reference_build(size_t length, size_t update, size_t area, const uint8_t *golden, size_t golden_length,
                         uint8_t *out, size_t out_length, size_t *place)
{
    uint32_t number = reference_layout(length, update, area);
    *place = 0;
    if (number != 0)
        return number;
    ReferenceBoot alone = reference_image_check(golden, golden_length, update - REFERENCE_GOLDEN);
    *place = alone.place;
    if (alone.number != 0)
        return alone.number;
    if (length > out_length)
        return TEALSETTLE_REFUSED_NO_ROOM;
    memset(out, 0xFF, length);
    put_jump(out + TEALSETTLE_SEGMENT, update);
    memcpy(out + REFERENCE_GOLDEN, golden, golden_length);
    return 0;
}

uint32_t reference_update_place(const uint8_t *chip, size_t length, int *found, size_t *update)
{
    uint8_t jump[4 * JUMP_WORDS];
    uint32_t named;
    *found = 0, *update = 0;
    if (!reference_length_allowed(length))
        return TEALSETTLE_REFUSED_BAD_CHIP_LENGTH;
    memcpy(&named, chip + TEALSETTLE_SEGMENT + 4, sizeof named);
    put_jump(jump, __builtin_bswap32(named));
    *found = memcmp(chip + TEALSETTLE_SEGMENT, jump, sizeof jump) == 0;
    *update = *found ? __builtin_bswap32(named) : 0;
    return 0;
}
