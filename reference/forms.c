/* What a file with an image is. */
#include "reference.h"

#include <string.h>

static const uint8_t BIT_START[13] = {0x00, 0x09, 0x0F, 0xF0, 0x0F, 0xF0, 0x0F, 0xF0, 0x0F, 0xF0, 0x00, 0x00, 0x01};

/* A number of so many bytes, high byte first. */
static size_t number_at(const uint8_t *bytes, size_t count)
{
    size_t number = 0;
    for (size_t i = 0; i < count; i++)
        number = number << 8 | bytes[i];
    return number;
}

/* Whether a field with this letter is at `at`, whole. */
static int is_field(const uint8_t *file, size_t length, size_t at, uint8_t letter, size_t count, size_t *content)
{
    if (length - at < 1 + count || file[at] != letter)
        return 0;
    *content = number_at(file + at + 1, count);
    return *content <= length - at - 1 - count;
}

static ReferenceForm bit_form(const uint8_t *file, size_t length)
{
    size_t at = sizeof BIT_START, content;
    for (uint8_t letter = 'a'; letter <= 'd'; letter++) {
        if (!is_field(file, length, at, letter, 2, &content))
            return (ReferenceForm){.number = TEALSETTLE_REFUSED_IMAGE_FAULT, .place = at};
        at += 3 + content;
    }
    if (!is_field(file, length, at, 'e', 4, &content))
        return (ReferenceForm){.number = TEALSETTLE_REFUSED_IMAGE_FAULT, .place = at};
    return (ReferenceForm){.form = TEALSETTLE_BIT, .first = at + 5, .length = content};
}

enum { BLOCK = 64 };

/* All are or-ed together before one is asked about: so the compiler takes many at once. */
static inline int is_text_block(const uint8_t *block)
{
    uint8_t any = 0;
    for (size_t i = 0; i < BLOCK; i++)
        any |= block[i];
    return any <= 0x7F;
}

/* Blocks, and then one by one. */
static int is_text(const uint8_t *file, size_t length)
{
    size_t i = 0;
    while (length - i >= BLOCK && is_text_block(file + i))
        i += BLOCK;
    while (i < length && file[i] <= 0x7F)
        i++;
    return i == length;
}

ReferenceForm reference_file_form(const uint8_t *file, size_t length)
{
    if (length >= sizeof BIT_START && memcmp(file, BIT_START, sizeof BIT_START) == 0)
        return bit_form(file, length);
    return (ReferenceForm){.form = is_text(file, length) ? TEALSETTLE_TEXT : TEALSETTLE_BINARY};
}
