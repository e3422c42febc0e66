/* What the tests of chips are made of: random numbers, layouts, packet streams and images. Nothing here reads a
 * stream: what an image loads is known from its making. */
#ifndef MAKE_H
#define MAKE_H

#include <stdint.h>
#include <string.h>

#include "../../include/tealsettle.h"

static const uint8_t ON[4] = {0xAA, 0x99, 0x55, 0x66};

/* Random numbers. */

static uint64_t seed = 88172645463325252u;

static inline uint64_t next_random(void)
{
    seed ^= seed << 13, seed ^= seed >> 7, seed ^= seed << 17;
    return seed * 0x2545F4914F6CDD1Du;
}

static inline size_t below(size_t n)
{
    return (size_t)((next_random() >> 16) % n);
}

static inline int one_in(unsigned n)
{
    return below(n) == 0;
}

static inline void fill_random(uint8_t *bytes, size_t length)
{
    for (size_t i = 0; i < length; i++)
        bytes[i] = (uint8_t)next_random();
}

static inline size_t min(size_t a, size_t b)
{
    return a < b ? a : b;
}

/* Kinds and layouts. */

static inline uint32_t some_kind(void)
{
    return one_in(50) ? 1 + (uint32_t)below(one_in(2) ? 3 : 0xFFFFFFFFu) : TEALSETTLE_SPI;
}

static inline size_t some_multiple(size_t least, size_t most)
{
    return least + 4096 * below((most - least) / 4096 + 1);
}

/* Packet streams. */

enum { STREAM = 1 << 16 };

static uint8_t stream[STREAM];
static size_t stream_length;

typedef struct {
    uint32_t register_number, word;
    size_t place;
} MadeWrite;

/* What the stream loads, as it was put down: true of a stream in which nothing is wrong. */
typedef struct {
    size_t sync, end, writes;
    MadeWrite list[STREAM / 4];
} Made;

static Made made;

static inline void put_word(uint32_t word)
{
    for (int shift = 24; shift >= 0; shift -= 8)
        stream[stream_length++] = (uint8_t)(word >> shift);
}

static inline void put_header(uint32_t reg, uint32_t count)
{
    put_word(0x30000000u | reg << 13 | count);
}

static inline void put_write(uint32_t reg, uint32_t word)
{
    made.list[made.writes++] = (MadeWrite){reg, word, stream_length};
    put_word(word);
}

/* A register that may be written; in a stream in which something is wrong, now and then any that five bits can name. */
static inline uint32_t some_register(int wrong)
{
    static const uint8_t listed[] = {0, 1, 2, 3, 4, 5, 6, 7, 8, 9, 10, 11, 12, 13, 14, 16, 17, 22, 24, 31};
    if (wrong && one_in(12))
        return (uint32_t)below(32);
    return one_in(3) ? 4 : one_in(5) ? 16 : listed[below(sizeof listed)];
}

/* A word that is likely to be mistaken for another. */
static inline uint32_t odd_word(void)
{
    static const uint32_t words[] = {0xAA995566u, 0x20000000u, 0x20000001u, 0x30008001u, 0x30008000u, 0x50000001u, 0x50000000u,
                                     0x0000000Du, 0x0000000Fu, 0x8000000Du, 0x30020001u, 0x28000000u, 0x38008001u, 0x48000001u,
                                     0x30008801u, 0x31008001u, 0x20008000u, 0x70000000u, 0xFFFFFFFFu, 0x00000000u, 0x6000C001u,
                                     0x3001E000u, 0x3001E001u, 0x30026001u};
    return one_in(3) ? (uint32_t)next_random() : words[below(sizeof words / sizeof *words)];
}

/* A data word; for CMD, in a stream that is to go on, none that ends it. */
static inline uint32_t data_word(uint32_t reg, int wrong)
{
    uint32_t word = one_in(2) ? odd_word() : (uint32_t)below(32);
    return reg == 4 && !(wrong && one_in(20)) && (word == 0x0D || word == 0x0F) ? 7 : word;
}

static inline void put_data(uint32_t reg, uint32_t count, int wrong)
{
    while (count-- > 0)
        put_write(reg, data_word(reg, wrong));
}

static inline uint32_t some_count(void)
{
    return (uint32_t)(one_in(40) ? below(300) : one_in(4) ? below(6) : 1);
}

/* One packet, and now and then something that is none. */
static inline void put_packet(int wrong)
{
    uint32_t reg = some_register(wrong), count = some_count();
    switch (wrong && one_in(12) ? 3 + below(3) : below(3)) {
    case 0:
        put_word(0x20000000u);
        break;
    case 1:
        put_header(reg, count);
        put_data(reg, count, wrong);
        break;
    case 2:
        put_header(reg, 0);
        if (one_in(2))
            put_word(0x50000000u | count), put_data(reg, count, wrong);
        break;
    case 3:
        put_word(odd_word());
        break;
    case 4: /* a type 2 header that has no register */
        put_word(one_in(2) ? 0x20000000u : 0x50000000u);
        put_word(0x50000000u | count);
        break;
    default: /* more data words than there are bytes */
        put_header(reg, (uint32_t)below(2048));
        put_data(reg, (uint32_t)below(8), wrong);
        break;
    }
}

/* What may stand before the sync word: often something like its beginning. */
static inline void put_lead(void)
{
    static const uint8_t like[] = {0xAA, 0x99, 0x55, 0xAA, 0x99, 0xAA, 0x66, 0xFF};
    size_t lead = one_in(2) ? 0 : below(20);
    int kind = (int)below(3);
    for (size_t i = 0; i < lead; i++)
        stream[stream_length++] = kind == 0 ? 0xFF : kind == 1 ? (uint8_t)next_random() : like[below(sizeof like)];
}

/* A whole stream of so many packets that ends with DESYNC; with something wrong in it where asked. */
static inline void make_stream(size_t packets, int wrong)
{
    stream_length = 0;
    put_lead();
    made.sync = stream_length, made.writes = 0;
    put_word(0xAA995566u);
    for (size_t i = 0; i < packets; i++)
        put_packet(wrong);
    if (!(wrong && one_in(6))) {
        put_header(4, 1);
        put_write(4, wrong && one_in(8) ? 0x0000000F : 0x0000000D);
    }
    made.end = stream_length;
    size_t after = one_in(3) ? below(24) : 0;
    fill_random(stream + stream_length, after);
    stream_length += after;
}

/* One damage: a byte or a bit changed, bytes cut off, taken out or put in. */
static inline void damage_stream(void)
{
    size_t at = below(stream_length + 1), gone = 1 + below(4);
    switch (below(5)) {
    case 0:
        if (at < stream_length)
            stream[at] = (uint8_t)next_random();
        break;
    case 1:
        if (at < stream_length)
            stream[at] ^= (uint8_t)(1u << below(8));
        break;
    case 2:
        stream_length = at;
        break;
    case 3:
        if (at + gone <= stream_length) {
            memmove(stream + at, stream + at + gone, stream_length - at - gone);
            stream_length -= gone;
        }
        break;
    default:
        memmove(stream + at + 1, stream + at, stream_length - at);
        stream[at] = (uint8_t)next_random();
        stream_length++;
        break;
    }
}

/* Images. */

/* Does a sync word stand in what was put before the stream's own? Then that one is found. */
static inline int lead_has_sync(void)
{
    for (size_t i = 0; i < made.sync; i++)
        if (memcmp(stream + i, ON, 4) == 0) /* the switch is ON by a sync word */
            return 1;
    return 0;
}

/* An accepted image of at most so many bytes, now and then just as many; what it loads is what was made. */
static inline size_t some_image(uint8_t *image, size_t most)
{
    do
        make_stream(one_in(8) ? below(60) : below(8), 0);
    while (stream_length > most || lead_has_sync());
    size_t length = one_in(6) ? most : one_in(3) ? stream_length + below(most - stream_length + 1) : stream_length;
    memcpy(image, stream, stream_length);
    fill_random(image + stream_length, length - stream_length);
    return length;
}

#endif
