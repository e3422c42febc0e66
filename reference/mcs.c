/* The reader of MCS text: a first pass that asks every question of every line, and a second that writes, since a refused
 * text leaves the buffer as it was. Both take eight characters at a time in a 64-bit word, the first in its lowest byte,
 * and what is left of a line by a table of digits. And whether a text is in the form of the writer, line by line: that takes
 * nothing from the writer. */
#include "reference.h"

#include <string.h>

/* A line's record, and the place after the line. */
typedef struct {
    uint32_t number, type, address;
    size_t count, end;
} Record;

/* ---- Pairs of digits, one at a time ---- */

enum { NONE = 0x80 }; /* no digit: or-ed together, digits stay below it */

static uint8_t digits[256];

static void make_digits(void)
{
    for (int c = 0; c < 256; c++)
        digits[c] = (uint8_t)(c >= '0' && c <= '9' ? c - '0' : c >= 'A' && c <= 'F' ? c - 'A' + 10 : NONE);
}

static inline uint32_t pair(const uint8_t *text)
{
    return (uint32_t)digits[text[0]] << 4 | digits[text[1]];
}

/* ---- Four pairs at a time ---- */

#define EACH 0x0101010101010101u /* times a byte: that byte eight times */

static inline uint64_t eight_at(const uint8_t *text)
{
    uint64_t characters;
    memcpy(&characters, text, sizeof characters);
    return characters;
}

/* Sets the high bit of each character that is at least `c`. All are below 0x80, so none carries into the next. */
static inline uint64_t at_least(uint64_t characters, unsigned c)
{
    return characters + EACH * (0x80 - c);
}

/* Not 0 where one of eight characters is no capital hexadecimal digit. A digit reaches one or three of these four bounds,
 * and nothing else does; a character from 0x80 on, which may carry, is told by its own high bit. */
static inline uint64_t not_digits(uint64_t characters)
{
    uint64_t inside = at_least(characters, '0') ^ at_least(characters, '9' + 1) ^ at_least(characters, 'A') ^
                      at_least(characters, 'F' + 1);
    return (characters | ~inside) & EACH * 0x80;
}

/* The bytes that eight digits give, one in each 16 bits. A letter has bit 6, and is 9 more than its low four bits. */
static inline uint64_t four_pairs(uint64_t characters)
{
    uint64_t values = (characters & EACH * 0x0F) + (characters >> 6 & EACH) * 9;
    return (values << 4 | values >> 8) & 0x00FF00FF00FF00FFu;
}

/* The four bytes side by side. */
static inline uint32_t pack(uint64_t pairs)
{
    pairs = (pairs | pairs >> 8) & 0x0000FFFF0000FFFFu;
    return (uint32_t)(pairs | pairs >> 16);
}

/* The sum of the four bytes; or of four sums, each of up to 64 bytes, as many as a line can have. */
static inline uint32_t add_up(uint64_t pairs)
{
    return (uint32_t)(pairs * 0x0001000100010001u >> 48);
}

/* ---- The first pass ---- */

/* The sum of pairs, and what is not 0 where one of them is none. */
typedef struct {
    uint32_t sum;
    uint64_t bad;
} Sum;

static inline Sum sum_groups(const uint8_t *pairs, size_t groups)
{
    uint64_t sums = 0, bad = 0;
    for (size_t i = 0; i < groups; i++) {
        uint64_t characters = eight_at(pairs + 8 * i);
        bad |= not_digits(characters);
        sums += four_pairs(characters);
    }
    return (Sum){add_up(sums), bad};
}

static inline Sum sum_pairs(const uint8_t *pairs, size_t count)
{
    Sum s = sum_groups(pairs, count / 4);
    for (size_t i = count / 4 * 4; i < count; i++) {
        s.bad |= (digits[pairs[2 * i]] | digits[pairs[2 * i + 1]]) & NONE;
        s.sum += pair(pairs + 2 * i);
    }
    return s;
}

static inline size_t line_end(const uint8_t *text, size_t left)
{
    if (text[0] == '\n')
        return 1;
    return left >= 2 && text[0] == '\r' && text[1] == '\n' ? 2 : 0;
}

static inline Record refused(uint32_t number)
{
    return (Record){.number = number};
}

static inline int record_allowed(uint32_t type, size_t count, uint32_t address)
{
    return type == 0 ? count > 0 : type == 1 ? count == 0 && address == 0 : type == 4 && count == 2 && address == 0;
}

/* What is asked of the line at `at` by itself. Its first four pairs are count, address and type. */
static inline Record check_line(const uint8_t *text, size_t length, size_t at)
{
    const uint8_t *line = text + at;
    size_t left = length - at;
    if (left < 12 || line[0] != ':' || not_digits(eight_at(line + 1)) != 0)
        return refused(TEALSETTLE_REFUSED_BAD_LINE);
    uint64_t front = four_pairs(eight_at(line + 1));
    uint32_t four = pack(front);
    size_t count = four & 0xFF, after = 2 * count + 11;
    if (left < after + 1)
        return refused(TEALSETTLE_REFUSED_BAD_LINE);
    Sum rest = sum_pairs(line + 9, count + 1);
    size_t ending = line_end(line + after, left - after);
    if (rest.bad != 0 || ending == 0)
        return refused(TEALSETTLE_REFUSED_BAD_LINE);
    if ((add_up(front) + rest.sum) % 256 != 0)
        return refused(TEALSETTLE_REFUSED_BAD_SUM);
    Record r = {0, four >> 24, (four >> 8 & 0xFF) << 8 | (four >> 16 & 0xFF), count, at + after + ending};
    return record_allowed(r.type, count, r.address) ? r : refused(TEALSETTLE_REFUSED_BAD_RECORD);
}

/* What a line of type 04 says. */
static inline uint32_t upper_half(const uint8_t *line)
{
    return pair(line + 9) << 8 | pair(line + 11);
}

/* How many bytes there are. */
static ReferenceRead check_text(const uint8_t *text, size_t length)
{
    size_t at = 0, next = 0;
    uint32_t upper = 0;
    while (at < length) {
        Record r = check_line(text, length, at);
        if (r.number != 0)
            return (ReferenceRead){r.number, at, 0};
        if (r.type == 1)
            return r.end < length ? (ReferenceRead){TEALSETTLE_REFUSED_BAD_END, r.end, 0} : (ReferenceRead){0, 0, next};
        if (r.type == 4)
            upper = upper_half(text + at);
        else if (((size_t)upper << 16 | r.address) != next || r.address + r.count > 65536)
            return (ReferenceRead){TEALSETTLE_REFUSED_BAD_ADDRESS, at, 0};
        else
            next += r.count;
        at = r.end;
    }
    return (ReferenceRead){TEALSETTLE_REFUSED_BAD_END, length, 0};
}

/* ---- The second pass ---- */

static inline void decode_groups(const uint8_t *pairs, size_t groups, uint8_t *restrict out)
{
    for (size_t i = 0; i < groups; i++) {
        uint32_t four = pack(four_pairs(eight_at(pairs + 8 * i)));
        memcpy(out + 4 * i, &four, sizeof four);
    }
}

static inline void decode_data(const uint8_t *pairs, size_t count, uint8_t *restrict out)
{
    decode_groups(pairs, count / 4, out);
    for (size_t i = count / 4 * 4; i < count; i++)
        out[i] = (uint8_t)pair(pairs + 2 * i);
}

/* The text is in order: only a data record's type ends in 0. */
static void decode_text(const uint8_t *text, size_t length, uint8_t *restrict out)
{
    size_t at = 0;
    while (at < length) {
        const uint8_t *line = text + at;
        size_t count = pair(line + 1), after = 2 * count + 11;
        if (line[8] == '0') {
            decode_data(line + 9, count, out);
            out += count;
        }
        at += after + (line[after] == '\n' ? 1 : 2);
    }
}

ReferenceRead reference_mcs_read(const uint8_t *text, size_t text_length, uint8_t *out, size_t out_length)
{
    make_digits();
    ReferenceRead r = check_text(text, text_length);
    if (r.number == 0 && r.length > out_length)
        return (ReferenceRead){TEALSETTLE_REFUSED_NO_ROOM, 0, 0};
    if (r.number == 0)
        decode_text(text, text_length, out);
    return r;
}

/* ---- Whether a text is in the form of the writer ---- */

enum { PER_RECORD = 16, PER_HALF = 65536 };

/* How much of a text has been passed: the data bytes, and the records of type 04. */
typedef struct {
    size_t bytes, halves;
} Passed;

/* Whether a record is one that comes next. A data record follows only whole ones, and the record of its upper half. Before the
 * end each such record has data after it, and there are as many bytes as an image has. */
static inline int comes_next(const Record *r, const uint8_t *line, const Passed *p)
{
    size_t begun = p->halves * PER_HALF; /* the bytes that may stand before the next record of type 04 */
    if (r->type == 0)
        return p->bytes < begun && p->bytes % PER_RECORD == 0 && r->count <= PER_RECORD && r->address == p->bytes % PER_HALF;
    if (r->type == 4)
        return p->bytes == begun && upper_half(line) == p->halves;
    return p->bytes > 0 && p->bytes <= REFERENCE_CHIP_MAX && p->bytes + PER_HALF > begun;
}

int reference_mcs_form(const uint8_t *text, size_t length)
{
    Passed p = {0, 0};
    size_t at = 0;
    make_digits();
    while (at < length) {
        Record r = check_line(text, length, at);
        if (r.number != 0 || text[r.end - 2] == '\r' || !comes_next(&r, text + at, &p))
            return 0;
        if (r.type == 1)
            return r.end == length;
        p.bytes += r.type == 0 ? r.count : 0;
        p.halves += r.type == 4;
        at = r.end;
    }
    return 0;
}
