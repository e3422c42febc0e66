/* The writer of MCS text: one pass over the image, each digit out of a table of sixteen. */
#include "reference.h"

enum { PER_RECORD = 16, PER_HALF = 65536, DATA = 0, END = 1, UPPER_HALF = 4 };

/* A record without its data: colon, count, address, type, checksum, LF. */
enum { BARE_RECORD = 12 };

static const char digits[] = "0123456789ABCDEF";

static inline uint8_t *put_byte(uint8_t *at, uint32_t byte)
{
    at[0] = (uint8_t)digits[byte >> 4];
    at[1] = (uint8_t)digits[byte & 15];
    return at + 2;
}

static inline uint8_t *put_record(uint8_t *restrict at, uint32_t type, uint32_t address, const uint8_t *restrict data,
                                  uint32_t count)
{
    uint32_t sum = count + (address >> 8) + (address & 255) + type;
    *at++ = ':';
    at = put_byte(at, count);
    at = put_byte(at, address >> 8);
    at = put_byte(at, address & 255);
    at = put_byte(at, type);
    for (uint32_t i = 0; i < count; i++) {
        sum += data[i];
        at = put_byte(at, data[i]);
    }
    at = put_byte(at, (256 - sum % 256) % 256);
    *at++ = '\n';
    return at;
}

uint32_t reference_mcs_length(size_t image_length, size_t *length)
{
    *length = 0;
    if (image_length < 1 || image_length > REFERENCE_CHIP_MAX)
        return TEALSETTLE_REFUSED_BAD_IMAGE_LENGTH;
    size_t halves = (image_length - 1) / PER_HALF + 1, records = (image_length - 1) / PER_RECORD + 1;
    *length = halves * (BARE_RECORD + 4) + records * BARE_RECORD + 2 * image_length + BARE_RECORD;
    return 0;
}

/* The records of the data that share an upper half, after the one that says it. */
static uint8_t *put_half(uint8_t *restrict at, uint32_t upper, const uint8_t *restrict data, size_t length)
{
    uint8_t half[2] = {(uint8_t)(upper >> 8), (uint8_t)upper};
    size_t whole = length / PER_RECORD * PER_RECORD;
    at = put_record(at, UPPER_HALF, 0, half, sizeof half);
    for (size_t i = 0; i < whole; i += PER_RECORD)
        at = put_record(at, DATA, (uint32_t)i, data + i, PER_RECORD);
    return whole < length ? put_record(at, DATA, (uint32_t)whole, data + whole, (uint32_t)(length - whole)) : at;
}

uint32_t reference_mcs_write(const uint8_t *image, size_t image_length, uint8_t *out, size_t out_length, size_t *length)
{
    uint32_t number = reference_mcs_length(image_length, length);
    if (number != 0)
        return number;
    if (out_length < *length)
        return *length = 0, TEALSETTLE_REFUSED_NO_ROOM;
    for (size_t i = 0; i < image_length; i += PER_HALF) {
        size_t left = image_length - i;
        out = put_half(out, (uint32_t)(i / PER_HALF), image + i, left < PER_HALF ? left : PER_HALF);
    }
    put_record(out, END, 0, image, 0);
    return 0;
}
