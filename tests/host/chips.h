/* Chips that nobody built, and what they loaded by the reference. */
#ifndef CHIPS_H
#define CHIPS_H

#include "compare.h"
#include "make.h"

enum { SMALL = 1 << 16, LISTED = 1 << 15 };

static uint8_t chip[SMALL];
static ReferenceWrite list[LISTED]; /* of the chip that was read last */

/* How often chips loaded what. */

static long answers[NUMBERS], stuck, golden, updated;

static inline void count_boot(const ReferenceBoot *boot)
{
    if (boot->number != 0)
        answers[boot->number]++;
    else if (boot->stuck)
        stuck++;
    else if (boot->jumped)
        updated++;
    else
        golden++;
}

static inline void print_boots(void)
{
    print_refusals(answers);
    printf("; chips stuck %ld, golden %ld, update %ld", stuck, golden, updated);
}

/* Chips. */

static inline void put_stream(size_t at, size_t length)
{
    if (at < length)
        memcpy(chip + at, stream, min(stream_length, length - at));
}

/* A stream that leaves with IPROG for a place, or close to it. */
static inline void make_jump(size_t target)
{
    make_stream(below(4), one_in(8));
    if (stream_length >= 8)
        stream_length -= 8;
    if (!one_in(20)) {
        put_header(16, 1);
        put_word((uint32_t)(target + (one_in(10) ? below(3) - 1 : 0)) | (one_in(4) ? 0xE0000000u : 0));
    }
    put_header(4, 1);
    put_word(0x0000000F);
}

/* A chip that nobody built: a stream, or one that jumps and another. */
static inline size_t make_chip(void)
{
    size_t length = one_in(12) ? below(SMALL) : 4096 * (4 + (one_in(4) ? below(8) : 0));
    size_t first = one_in(3) ? below(9000) : below(40), second = one_in(4) ? below(length + 40) : first + below(6000);
    memset(chip, one_in(8) ? (int)below(256) : 0xFF, sizeof chip);
    make_stream(below(10), one_in(3));
    if (one_in(3))
        damage_stream();
    put_stream(second, length);
    if (!one_in(4)) {
        make_jump(one_in(10) ? length : second);
        if (one_in(10))
            damage_stream();
        put_stream(first, length);
    }
    return length;
}

#endif
