/* The configuration reader. It searches for the sync word's first byte with memchr, and passes a packet's data words at
 * once: only those of CMD are looked at, and the last one of WBSTAR. Where writes are listed, every data word is visited. */
#include "reference.h"

#include <string.h>

#define SYNC 0xAA995566u
#define NOP 0x20000000u
#define DESYNC 0x0000000Du
#define IPROG 0x0000000Fu

enum { CMD = 4, WBSTAR = 16 };

/* The registers that a write header may name, a bit for each: 0 to 14, 16, 17, 22, 24 and 31. */
#define REGISTERS 0x81437FFFu

/* What comes next in a reading of packets, or how it ends. */
typedef enum { DATA, HEADER, ENDED, JUMPS, FAULT, SHORT } Status;

/* Where a reading is: the next word, the packet it is in, and what was met so far. */
typedef struct {
    size_t at, writes;
    uint32_t reg, left, wbstar;
} Scanner;

/* Where writes are listed. Without a list they are only counted; all that takes a sink is inlined, so that a
 * constant null leaves no trace in the loop. */
typedef struct {
    ReferenceWrite *list;
    size_t room;
} Sink;

static inline uint32_t word_at(const uint8_t *bytes)
{
    uint32_t word;
    memcpy(&word, bytes, sizeof word);
    return __builtin_bswap32(word);
}

/* The first place from `at` on where the sync word begins; `length` where there is none. */
static inline size_t find_sync(const uint8_t *bytes, size_t length, size_t at)
{
    while (length - at >= 4) {
        const uint8_t *first = memchr(bytes + at, SYNC >> 24, length - at - 3);
        if (!first)
            return length;
        if (word_at(first) == SYNC)
            return (size_t)(first - bytes);
        at = (size_t)(first - bytes) + 1;
    }
    return length;
}

/* A type 2 header counts only right after a type 1 write header of count 0: so it is taken with that one. */
static inline void take_type2(const uint8_t *bytes, size_t length, Scanner *s)
{
    if (length - s->at < 4)
        return;
    uint32_t word = word_at(bytes + s->at);
    if ((word & 0xF8000000u) == 0x50000000u)
        s->left = word & 0x07FFFFFF, s->at += 4;
}

static inline Status take_header(const uint8_t *bytes, size_t length, Scanner *s)
{
    if (length - s->at < 4)
        return SHORT;
    uint32_t word = word_at(bytes + s->at);
    if (word == NOP) {
        s->at += 4, s->left = 0;
        return HEADER;
    }
    uint32_t reg = word >> 13 & 31;
    if ((word & 0xFFFC1800u) != 0x30000000u || (REGISTERS >> reg & 1) == 0)
        return FAULT;
    s->at += 4, s->reg = reg, s->left = word & 0x7FF;
    if (s->left == 0)
        take_type2(bytes, length, s);
    return DATA;
}

/* An IPROG is a write too, but it ends its list: so it need not be counted. */
static inline Status visit_data(const uint8_t *bytes, size_t length, Scanner *s, Sink sink)
{
    for (; s->left > 0; s->left--) {
        if (length - s->at < 4)
            return SHORT;
        uint32_t word = word_at(bytes + s->at);
        if (s->reg == CMD && word == IPROG)
            return JUMPS;
        if (sink.list && s->writes < sink.room)
            sink.list[s->writes] = (ReferenceWrite){s->reg, word, s->at};
        s->at += 4, s->writes++;
        if (s->reg == CMD && word == DESYNC)
            return ENDED;
        if (s->reg == WBSTAR)
            s->wbstar = word;
    }
    return HEADER;
}

/* All data words of a packet at once, of any register but CMD. A single one, which most packets have, is told apart: the
 * place after it is then known by prediction, and need not wait for the count to be loaded. */
static inline Status skip_data(const uint8_t *bytes, size_t length, Scanner *s)
{
    if (s->left == 1 && s->reg != WBSTAR && length - s->at >= 4) {
        s->at += 4, s->writes++;
        return HEADER;
    }
    if (s->left > (length - s->at) / 4)
        return SHORT;
    s->at += 4 * (size_t)s->left, s->writes += s->left;
    if (s->reg == WBSTAR && s->left > 0)
        s->wbstar = word_at(bytes + s->at - 4);
    return HEADER;
}

static inline Status take_data(const uint8_t *bytes, size_t length, Scanner *s, Sink sink)
{
    return sink.list || s->reg == CMD ? visit_data(bytes, length, s, sink) : skip_data(bytes, length, s);
}

static inline Status read_packets(const uint8_t *bytes, size_t length, Scanner *scanner, Sink sink)
{
    Scanner s = *scanner; /* in registers */
    Status status;
    do {
        status = take_header(bytes, length, &s);
        if (status == DATA)
            status = take_data(bytes, length, &s, sink);
    } while (status == HEADER);
    *scanner = s;
    return status;
}

static inline ReferenceBoot stuck_at(uint32_t number, size_t place)
{
    return (ReferenceBoot){.number = number, .place = place, .stuck = 1};
}

/* Reads from byte 0 on, with so many jumps. What is stuck has the number that an image is then refused with. */
static inline __attribute__((always_inline)) ReferenceBoot read_all(const uint8_t *bytes, size_t length, int jumps, Sink sink)
{
    ReferenceBoot boot = {0};
    size_t from = 0;
    for (;;) {
        boot.sync = find_sync(bytes, length, from);
        if (boot.sync == length)
            return stuck_at(TEALSETTLE_REFUSED_IMAGE_FAULT, length);
        Scanner s = {.at = boot.sync + 4};
        Status status = read_packets(bytes, length, &s, sink);
        if (status == ENDED) {
            boot.end = s.at, boot.writes = s.writes;
            return boot;
        }
        if (status != JUMPS)
            return stuck_at(TEALSETTLE_REFUSED_IMAGE_FAULT, status == FAULT ? s.at : length);
        from = s.wbstar & 0x1FFFFFFF;
        if (boot.jumped == jumps)
            return stuck_at(TEALSETTLE_REFUSED_IMAGE_JUMPS, s.at);
        if (from >= length)
            return stuck_at(TEALSETTLE_REFUSED_IMAGE_FAULT, s.at);
        boot.jumped++;
    }
}

static ReferenceBoot read_and_count(const uint8_t *bytes, size_t length, int jumps)
{
    return read_all(bytes, length, jumps, (Sink){NULL, 0});
}

ReferenceBoot reference_boot(const uint8_t *chip, size_t length)
{
    if (!reference_length_allowed(length))
        return (ReferenceBoot){.number = TEALSETTLE_REFUSED_BAD_CHIP_LENGTH};
    ReferenceBoot boot = read_and_count(chip, length, 1);
    boot.number = 0; /* a chip that is stuck is an answer */
    return boot;
}

ReferenceBoot reference_boot_list(const uint8_t *chip, size_t length, ReferenceWrite *list, size_t room)
{
    if (!reference_length_allowed(length))
        return (ReferenceBoot){.number = TEALSETTLE_REFUSED_BAD_CHIP_LENGTH};
    ReferenceBoot boot = read_all(chip, length, 1, (Sink){list, room});
    boot.number = 0;
    return boot;
}

ReferenceBoot reference_image_check(const uint8_t *image, size_t length, size_t most)
{
    if (length == 0 || length > most)
        return (ReferenceBoot){.number = TEALSETTLE_REFUSED_BAD_IMAGE_LENGTH};
    ReferenceBoot boot = read_and_count(image, length, 0);
    boot.stuck = 0;
    return boot;
}

/* After DESYNC and IPROG nothing is left. */
int reference_next_write(ReferenceCursor *cursor, const uint8_t *bytes, size_t length, ReferenceWrite *write)
{
    Scanner s = {.at = cursor->at, .reg = cursor->register_number};
    size_t left = cursor->left;
    if (cursor->remaining == 0 || s.at > length)
        return 0;
    for (; left == 0; left = s.left) {
        Status next = take_header(bytes, length, &s);
        if (next != DATA && next != HEADER)
            return 0;
    }
    if (length - s.at < 4)
        return 0;
    uint32_t word = word_at(bytes + s.at);
    int last = s.reg == CMD && (word == DESYNC || word == IPROG);
    *write = (ReferenceWrite){s.reg, word, s.at};
    *cursor = (ReferenceCursor){s.at + 4, s.reg, left - 1, last ? 0 : cursor->remaining - 1};
    return 1;
}
