/* MCS texts, put down record by record, and damaged. Nothing here reads one, or takes anything from a writer. */
#ifndef TEXTS_H
#define TEXTS_H

#include "make.h"

#include <stdio.h>

static uint8_t text[48 << 20]; /* room for the text of the longest image, and more */
static size_t text_length;

static inline void put_pairs(const uint8_t *pairs, size_t count)
{
    for (size_t i = 0; i < count; i++)
        text_length += (size_t)sprintf((char *)text + text_length, "%02X", pairs[i]);
}

/* A record with the checksum that it must have. The address is taken modulo 65,536. */
static inline void put_record(size_t address, size_t type, const uint8_t *data, size_t count, int cr)
{
    uint8_t pairs[260] = {(uint8_t)count, (uint8_t)(address >> 8), (uint8_t)address, (uint8_t)type};
    unsigned sum = 0;
    memcpy(pairs + 4, data, count);
    for (size_t i = 0; i < count + 4; i++)
        sum += pairs[i];
    pairs[count + 4] = (uint8_t)(0 - sum);
    text[text_length++] = ':';
    put_pairs(pairs, count + 5);
    if (cr)
        text[text_length++] = '\r';
    text[text_length++] = '\n';
}

/* Other bytes in the place of some. */
static inline void splice(size_t at, size_t gone, const void *bytes, size_t count)
{
    memmove(text + at + count, text + at + gone, text_length - at - gone);
    memcpy(text + at, bytes, count);
    text_length = text_length - gone + count;
}

/* One damage: a byte changed, cut off, taken out or put in. */
static inline void damage_text(void)
{
    static const char likely[] = "0123456789ABCDEF:\r\nabcdefG@/ ";
    size_t at = text_length ? below(text_length) : 0, kind = text_length ? below(4) : 3;
    uint8_t c = (uint8_t)(one_in(2) ? below(256) : (size_t)likely[below(sizeof likely - 1)]);
    if (kind == 0)
        text[at] = c;
    else if (kind == 1)
        text_length = at;
    else if (kind == 2)
        splice(at, 1, "", 0);
    else
        splice(at, 0, &c, 1);
}

#endif
