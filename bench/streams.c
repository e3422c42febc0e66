/* Packet streams to read: chips full of one kind of packet, chips without a stream, and images with the packets of the two
 * kinds of bitstream that Vivado writes. */
#define _GNU_SOURCE
#include "bench.h"

#include <string.h>

#include "../include/tealsettle.h"

#define SYNC 0xAA995566u
#define NOP 0x20000000u
#define WRITE(reg, count) (0x30000000u | (uint32_t)(reg) << 13 | (uint32_t)(count))
#define TYPE2(count) (0x50000000u | (uint32_t)(count))

enum { CRC, FAR, FDRI, CMD = 4, CTL0, MASK, COR0 = 9, MFWR, IDCODE = 12, COR1 = 14, WBSTAR = 16, TIMER, CTL1 = 24 };

/* The words of CMD. */
enum { WCFG = 1, MFW, LFRM, START = 5, RCRC = 7, SWITCH = 9, GRESTORE, DESYNC = 13 };

/* Words are put down from the front on. */
typedef struct {
    uint8_t *bytes;
    size_t at;
} Stream;

static void put_word(Stream *s, uint32_t word)
{
    uint32_t high_first = __builtin_bswap32(word);
    memcpy(s->bytes + s->at, &high_first, 4);
    s->at += 4;
}

static void put_words(Stream *s, const uint32_t *words, size_t count)
{
    for (size_t i = 0; i < count; i++)
        put_word(s, words[i]);
}

static void put_nops(Stream *s, size_t count)
{
    for (; count > 0; count--)
        put_word(s, NOP);
}

static void put_random(Stream *s, size_t count)
{
    for (; count > 0; count--)
        put_word(s, (uint32_t)next_random());
}

/* A packet of random words, of a register other than CMD. */
static void put_packet(Stream *s, uint32_t reg, size_t count)
{
    put_word(s, WRITE(reg, count));
    put_random(s, count);
}

static void put_command(Stream *s, uint32_t word)
{
    put_word(s, WRITE(CMD, 1));
    put_word(s, word);
}

/* Any that may be written, but CMD. */
static uint32_t some_register(void)
{
    static const uint8_t listed[] = {0, 1, 2, 3, 5, 6, 7, 8, 9, 10, 11, 12, 13, 14, 16, 17, 22, 24, 31};
    return listed[below(sizeof listed)];
}

/* ---- Chips ---- */

/* How many words there is room for before the DESYNC at the end of `length` bytes. */
static size_t words_left(const Stream *s, size_t length)
{
    return (length - 8 - s->at) / 4;
}

static Stream begin(uint8_t *bytes)
{
    Stream s = {bytes, 0};
    put_word(&s, SYNC);
    return s;
}

/* No-operations up to the end, and DESYNC there. */
static void end(Stream *s, size_t length)
{
    put_nops(s, words_left(s, length));
    put_command(s, DESYNC);
}

void make_long_packet(uint8_t *bytes, size_t length)
{
    Stream s = begin(bytes);
    put_word(&s, WRITE(FDRI, 0));
    size_t count = words_left(&s, length) - 1;
    put_word(&s, TYPE2(count));
    put_random(&s, count);
    end(&s, length);
}

void make_long(uint8_t *chip)
{
    make_long_packet(chip, MIB16);
}

/* Packets of so many data words each. */
static void make_equal(uint8_t *chip, size_t count)
{
    Stream s = begin(chip);
    while (words_left(&s, MIB16) > count)
        put_packet(&s, some_register(), count);
    end(&s, MIB16);
}

void make_ones(uint8_t *chip)
{
    make_equal(chip, 1);
}

void make_twos(uint8_t *chip)
{
    make_equal(chip, 2);
}

void make_threes(uint8_t *chip)
{
    make_equal(chip, 3);
}

/* A type 1 header of no words, and the type 2 packet of one word that it opens its register to. */
void make_type2s(uint8_t *chip)
{
    Stream s = begin(chip);
    while (words_left(&s, MIB16) >= 3) {
        put_packet(&s, some_register(), 0);
        put_word(&s, TYPE2(1));
        put_random(&s, 1);
    }
    end(&s, MIB16);
}

void make_nops(uint8_t *chip)
{
    Stream s = begin(chip);
    end(&s, MIB16);
}

void make_commands(uint8_t *chip)
{
    Stream s = begin(chip);
    while (words_left(&s, MIB16) >= 2)
        put_command(&s, (uint32_t)below(DESYNC));
    end(&s, MIB16);
}

static void put_commands(Stream *s, size_t count)
{
    put_word(s, WRITE(CMD, count));
    for (; count > 0; count--)
        put_word(s, (uint32_t)below(DESYNC));
}

/* One in four is a no-operation, and one in 32 packets is of CMD. */
static void put_some(Stream *s)
{
    size_t count = below(9);
    if (below(4) == 0)
        put_nops(s, 1);
    else if (below(32) == 0)
        put_commands(s, count);
    else
        put_packet(s, some_register(), count);
}

void make_mixed(uint8_t *chip)
{
    Stream s = begin(chip);
    while (words_left(&s, MIB16) >= 9)
        put_some(&s);
    end(&s, MIB16);
}

void make_heaviest(uint8_t *chip)
{
    if (tealsettle_heaviest_image(MIB16, chip, MIB16).number != 0)
        fail("heaviest image");
}

void make_erased(uint8_t *chip)
{
    memset(chip, 0xFF, MIB16);
}

void make_noise(uint8_t *chip)
{
    uint8_t *sync;
    fill_random(chip, MIB16);
    while ((sync = memmem(chip, MIB16, "\xAA\x99\x55\x66", 4)) != NULL)
        *sync = 0;
}

/* ---- Bitstreams ---- */

#define COUNT(array) (sizeof(array) / sizeof *(array))
#define NOP8 NOP, NOP, NOP, NOP, NOP, NOP, NOP, NOP
#define NOP100 NOP8, NOP8, NOP8, NOP8, NOP8, NOP8, NOP8, NOP8, NOP8, NOP8, NOP8, NOP8, NOP, NOP, NOP, NOP

/* What comes before the frames and after them: the words of a bitstream for an XC7A35T, but for its write to register 19,
 * which the reader refuses: there are two no-operations instead. The reader does not ask whether the two CRCs are right. */
static const uint32_t FRONT[] = {
    0xFFFFFFFF, 0xFFFFFFFF, 0xFFFFFFFF, 0xFFFFFFFF, 0xFFFFFFFF, 0xFFFFFFFF, 0xFFFFFFFF, 0xFFFFFFFF, 0x000000BB, 0x11220044,
    0xFFFFFFFF, 0xFFFFFFFF, SYNC, NOP, WRITE(31, 1), 0x0000026B, WRITE(CMD, 1), 18, NOP, WRITE(TIMER, 1), 0,
    WRITE(WBSTAR, 1), 0, WRITE(CMD, 1), 0, NOP, WRITE(CMD, 1), RCRC, NOP, NOP, NOP, NOP, WRITE(COR0, 1), 0x02003FE5,
    WRITE(COR1, 1), 0, WRITE(IDCODE, 1), 0x0362D093, WRITE(CMD, 1), SWITCH, NOP, WRITE(MASK, 1), 0x00000401,
    WRITE(CTL0, 1), 0x00000501, WRITE(MASK, 1), 0, WRITE(CTL1, 1), 0, NOP8, WRITE(FAR, 1), 0, WRITE(CMD, 1), WCFG, NOP,
};

static const uint32_t BACK[] = {
    WRITE(CRC, 1), 0x288B9C6D, NOP, NOP, WRITE(CMD, 1), GRESTORE, NOP, WRITE(CMD, 1), LFRM, NOP100, WRITE(CMD, 1), START, NOP,
    WRITE(FAR, 1), 0x03BE0000, WRITE(MASK, 1), 0x00000501, WRITE(CTL0, 1), 0x00000501, WRITE(CRC, 1), 0xE3AD7EA5, NOP, NOP,
    WRITE(CMD, 1), DESYNC,
};

enum {
    FRAME = 101,                        /* words */
    PLAIN_FRAMES = 5420,                /* of an XC7A35T */
    GROUPS = 64, FRAMES_IN_GROUP = 440, /* frames that are alike: about as in a compressed bitstream for an XC7K325T */
};

size_t make_plain_bitstream(uint8_t *image)
{
    Stream s = {image, 0};
    put_words(&s, FRONT, COUNT(FRONT));
    put_word(&s, WRITE(FDRI, 0));
    put_word(&s, TYPE2(PLAIN_FRAMES * FRAME));
    put_random(&s, PLAIN_FRAMES * FRAME);
    put_words(&s, BACK, COUNT(BACK));
    return s.at;
}

/* Some frames by FDRI; then the last of them at many more addresses, by MFWR, each followed by so many no-operations. */
static void put_group(Stream *s, size_t nops)
{
    put_command(s, WCFG), put_nops(s, 1);
    put_packet(s, FAR, 1), put_nops(s, 1);
    put_packet(s, FDRI, FRAME * (1 + below(5)));
    put_command(s, MFW), put_nops(s, 12);
    put_packet(s, MFWR, 8);
    for (int i = 0; i < FRAMES_IN_GROUP; i++) {
        put_packet(s, FAR, 1);
        put_packet(s, MFWR, 4);
        put_nops(s, nops);
    }
}

size_t make_compressed_bitstream(uint8_t *image)
{
    Stream s = {image, 0};
    put_words(&s, FRONT, COUNT(FRONT));
    for (int i = 1; i <= GROUPS; i++)
        put_group(&s, i % 5 == 0 ? 8 : 0);
    put_words(&s, BACK, COUNT(BACK));
    return s.at;
}
