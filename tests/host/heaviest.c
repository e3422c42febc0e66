/* tealsettle_most_writes and tealsettle_heaviest_image: for every length from 12 to 9,000 the number is the greatest by a search
 * through all ways to divide so many words into packets; for these and some large ones the image has just as many by the image
 * check and is the reference's byte for byte, at the front of its buffer. A buffer that is too small, and lengths that no image
 * has, are refused, and nothing is written. The number alone is compared for every length, and random images have no more writes
 * than the number for theirs. */
#include "compare.h"
#include "make.h"

#include <stdlib.h>

enum { SHORTEST = 12, LONGEST = 16 << 20, EVERY = 9000, WORDS = EVERY / 4, MOST_OF_TYPE1 = 2047, RANDOM = 300000, LARGE = 20 };
enum { MORE = 4096, MARGIN = 64 }; /* room after an image, and bytes after the room */

static uint8_t *out, *expected;
static size_t greatest[WORDS]; /* by the number of words after the sync word */
static long images;

/* The most writes of so many words where the first packet has so many headers, and at most so many data words; after it further
 * packets may come. */
static size_t best_packet(size_t words, size_t headers, size_t most)
{
    size_t best = 0;
    for (size_t count = 1; count <= most && headers + count <= words; count++) {
        size_t writes = count + greatest[words - headers - count];
        best = writes > best ? writes : best;
    }
    return best;
}

/* The greatest number of writes by the packet rules themselves. A packet takes a header and up to 2,047 data words, or two
 * headers and any number of them. (A no-operation, or a packet without data words, is no better than a word that is not read.)
 * The last ends with DESYNC. */
static void search_packets(void)
{
    for (size_t words = 2; words < WORDS; words++) {
        size_t one = best_packet(words, 1, MOST_OF_TYPE1), two = best_packet(words, 2, words);
        greatest[words] = one > two ? one : two;
    }
}

static int most_differs(const char *what, TealsettleMost most, uint32_t number, size_t writes)
{
    return differs(what, most.number, number) || differs("place", most.place, 0) || differs("writes", most.writes, writes);
}

/* The call says that no image has this length, or that there is no room; and nothing is written. */
static int refusal_differs(uint32_t number, size_t n, size_t room)
{
    tried++;
    memset(out, 0x5A, room + MARGIN);
    memset(expected, 0x5A, room + MARGIN);
    return most_differs("a refusal", tealsettle_heaviest_image(n, out, room), number, 0) ||
           bytes_differ("bytes after a refusal", out, expected, room + MARGIN);
}

/* The image check's own word: as many writes, to the last whole word. */
static int check_differs(size_t n, size_t writes)
{
    TealsettleImage image = tealsettle_image_check(TEALSETTLE_SPI, out, n);
    ReferenceBoot other = reference_image_check(out, n, LONGEST);
    return differs("image check: number", image.number, 0) || differs("image check: sync", image.sync, 0) ||
           differs("image check: end", image.end, n / 4 * 4) || differs("image check: writes", image.writes, writes) ||
           differs("reference: number", other.number, 0) || differs("reference: writes", other.writes, writes);
}

/* An image at the front of a buffer that has `more` bytes after it. */
static int image_differs(size_t n, size_t more)
{
    size_t writes, written;
    uint32_t number = reference_most_writes(n, &writes);
    tried++, images++;
    memset(out, 0x5A, n + more + MARGIN);
    memset(expected, 0x5A, n + more + MARGIN);
    if (most_differs("the number", tealsettle_most_writes(n), number, writes))
        return 1;
    number = reference_heaviest_image(n, expected, n + more, &written);
    return most_differs("the image", tealsettle_heaviest_image(n, out, n + more), number, written) ||
           bytes_differ("bytes of the image, and those after it", out, expected, n + more + MARGIN) || check_differs(n, writes);
}

/* An image with no room after it, and with more; and no room for it. */
static int length_differs(size_t n)
{
    return image_differs(n, 0) || image_differs(n, one_in(2) ? MORE : below(MARGIN)) ||
           refusal_differs(TEALSETTLE_REFUSED_NO_ROOM, n, n - 1) || refusal_differs(TEALSETTLE_REFUSED_NO_ROOM, n, below(n));
}

/* The number alone, for every length. */
static int try_numbers(void)
{
    for (size_t n = 0; n <= LONGEST + MORE; n++) {
        size_t writes;
        uint32_t number = reference_most_writes(n, &writes);
        tried++;
        if (most_differs("the number", tealsettle_most_writes(n), number, writes))
            return 1;
    }
    return 0;
}

static int try_every(void)
{
    search_packets();
    for (size_t n = SHORTEST; n <= EVERY; n++)
        if (differs("the number, by a search through all packets", tealsettle_most_writes(n).writes, greatest[n / 4 - 1]) ||
            length_differs(n))
            return 1;
    return 0;
}

static int try_large(void)
{
    return length_differs(EVERY + below(LONGEST - EVERY));
}

static int try_longest(void)
{
    for (size_t n = LONGEST - 9; n <= LONGEST; n++)
        if (length_differs(n))
            return 1;
    return 0;
}

/* A length that no image has: 29, whether there is no room, some, or more than for any image. */
static int none_differs(size_t n)
{
    return most_differs("the number", tealsettle_most_writes(n), TEALSETTLE_REFUSED_BAD_HEAVIEST_LENGTH, 0) ||
           refusal_differs(TEALSETTLE_REFUSED_BAD_HEAVIEST_LENGTH, n, 0) ||
           refusal_differs(TEALSETTLE_REFUSED_BAD_HEAVIEST_LENGTH, n, below(MARGIN)) ||
           refusal_differs(TEALSETTLE_REFUSED_BAD_HEAVIEST_LENGTH, n, LONGEST + MORE);
}

static int try_lengths(void)
{
    static const size_t far[] = {(size_t)1 << 25, ((size_t)1 << 32) + 12, ((size_t)1 << 34) + 4096, ((size_t)1 << 63) + 12, SIZE_MAX};
    for (size_t i = 0; i < SHORTEST; i++)
        if (none_differs(i) || none_differs(LONGEST + 1 + i) || none_differs(far[i % (sizeof far / sizeof *far)]))
            return 1;
    return 0;
}

/* A random image, damaged or not: if it is accepted, it has at most the number for its length. */
static int try_random(void)
{
    make_stream(below(12), one_in(3));
    if (one_in(2))
        damage_stream();
    TealsettleImage image = tealsettle_image_check(TEALSETTLE_SPI, stream, stream_length);
    tried++;
    if (image.number != 0)
        return 0;
    images++;
    return differs("more writes than there can be", image.writes > tealsettle_most_writes(stream_length).writes, 0);
}

int main(void)
{
    out = malloc(LONGEST + MORE + MARGIN);
    expected = malloc(LONGEST + MORE + MARGIN);
    if (!out || !expected || try_numbers() || try_every() || try_often(LARGE, try_large) || try_longest() || try_lengths() ||
        try_often(RANDOM, try_random))
        return 1;
    printf("host test: %ld lengths, images and refusals for the most writes, %ld images accepted: none has more\n", tried, images);
    return 0;
}
