/* tealsettle_mcs_length for every length, by the formula of the specification; and tealsettle_mcs_write beside the reference, for
 * every short image, those about multiples of 65,536, random and the longest ones. The buffer has just room for the text, or more,
 * or a byte too few; answers and every byte of it are compared. Each text is read back, and is in the form. Prints how many were
 * tried. */
#include "compare.h"
#include "make.h"

#include <stdlib.h>

enum { LONGEST = 16 << 20, LONGEST_TEXT = 46141452, HALF = 65536, SHORT = 600, RANDOM = 200 };
enum { MORE = 4096, MARGIN = 64 }; /* room after a text, and bytes after the room */

static uint8_t *bytes, *ours, *theirs;
static const uint8_t *image; /* some of the bytes */
static long images;

static int is_image(size_t n)
{
    return n >= 1 && n <= LONGEST;
}

static size_t expected_length(size_t n)
{
    size_t rest = n % 16;
    return 16 * ((n + HALF - 1) / HALF) + 44 * (n / 16) + (rest ? 12 + 2 * rest : 0) + 12;
}

static int answer_differs(const char *what, TealsettleText answer, uint32_t number, size_t length)
{
    return differs(what, answer.number, number) || differs("place", answer.place, 0) || differs("length", answer.length, length);
}

/* ---- The length alone ---- */

static int length_differs(size_t n)
{
    size_t length, expected = is_image(n) ? expected_length(n) : 0;
    uint32_t number = is_image(n) ? 0 : TEALSETTLE_REFUSED_BAD_IMAGE_LENGTH;
    tried++;
    return answer_differs("the length's number", tealsettle_mcs_length(n), number, expected) ||
           differs("reference: number", reference_mcs_length(n, &length), number) ||
           differs("reference: length", length, expected);
}

static int try_lengths(void)
{
    for (size_t n = 0; n <= LONGEST + MORE; n++)
        if (length_differs(n))
            return 1;
    return differs("the longest text", tealsettle_mcs_length(LONGEST).length, LONGEST_TEXT);
}

static int try_far_lengths(void)
{
    static const size_t far[] = {(size_t)1 << 25, ((size_t)1 << 32) + 16, ((size_t)1 << 60) + 1, (size_t)1 << 63,
                                 SIZE_MAX - 15, SIZE_MAX};
    for (size_t i = 0; i < sizeof far / sizeof *far; i++)
        if (length_differs(far[i]))
            return 1;
    return 0;
}

/* ---- Texts ---- */

/* Whether all of these bytes are as they were set: the first is, and each next is as the one before it. */
static int as_before(const uint8_t *rest, size_t length)
{
    return rest[0] == 0x5A && memcmp(rest, rest + 1, length - 1) == 0;
}

/* Into a buffer of so many bytes: this number, the text in front or none, and all else as it was. */
static int text_differs(uint32_t number, size_t n, size_t room)
{
    size_t length, expected = number == 0 ? expected_length(n) : 0;
    tried++;
    memset(ours, 0x5A, room + MARGIN);
    memset(theirs, 0x5A, room + MARGIN);
    return differs("reference: number", reference_mcs_write(image, n, theirs, room, &length), number) ||
           differs("reference: length", length, expected) ||
           answer_differs("the text's number", tealsettle_mcs_write(image, n, ours, room), number, expected) ||
           bytes_differ("bytes of the text, and those after it", ours, theirs, room + MARGIN) ||
           differs("the rest is as it was", (size_t)as_before(ours + expected, room + MARGIN - expected), 1);
}

/* The text that was written last holds the image, and is in the form. */
static int reading_differs(size_t n)
{
    size_t length = expected_length(n);
    TealsettleRead read = tealsettle_mcs_read(ours, length, theirs, n);
    images++;
    return differs("number read", read.number, 0) || differs("length read", read.length, n) ||
           bytes_differ("bytes read back", theirs, image, n) || differs("form", tealsettle_mcs_form(ours, length), 1) ||
           differs("reference: form", (size_t)reference_mcs_form(ours, length), 1);
}

static int image_differs(size_t n)
{
    size_t length = expected_length(n);
    image = bytes + below(LONGEST + 1 - n);
    return text_differs(TEALSETTLE_REFUSED_NO_ROOM, n, length - 1) ||
           text_differs(TEALSETTLE_REFUSED_NO_ROOM, n, below(length)) || text_differs(0, n, length + 1 + below(MORE)) ||
           text_differs(0, n, length) || reading_differs(n);
}

static int try_short(void)
{
    for (size_t n = 1; n <= SHORT; n++)
        if (image_differs(n))
            return 1;
    return 0;
}

static int try_halves(void)
{
    for (size_t n = HALF - 17; n <= HALF + 17; n++)
        if (image_differs(n) || image_differs(n + HALF))
            return 1;
    return 0;
}

static int try_random(void)
{
    return image_differs(1 + below(3 * HALF));
}

static int try_longest(void)
{
    return image_differs(LONGEST) || image_differs(LONGEST - 15) || image_differs(LONGEST - HALF);
}

/* A length that no image has: 4, whether there is no room, some, or more than for any text. */
static int none_differs(size_t n)
{
    image = bytes;
    return text_differs(TEALSETTLE_REFUSED_BAD_IMAGE_LENGTH, n, 0) ||
           text_differs(TEALSETTLE_REFUSED_BAD_IMAGE_LENGTH, n, below(MARGIN)) ||
           text_differs(TEALSETTLE_REFUSED_BAD_IMAGE_LENGTH, n, LONGEST_TEXT + MORE);
}

int main(void)
{
    bytes = malloc(LONGEST + 2);
    ours = malloc(LONGEST_TEXT + MORE + MARGIN);
    theirs = malloc(LONGEST_TEXT + MORE + MARGIN);
    if (!bytes || !ours || !theirs)
        return 1;
    fill_random(bytes, LONGEST + 2);
    if (try_lengths() || try_far_lengths() || try_short() || try_halves() || try_often(RANDOM, try_random) || try_longest() ||
        none_differs(0) || none_differs(LONGEST + 1) || none_differs(LONGEST + 2))
        return 1;
    printf("host test: %ld lengths, texts and refusals of MCS text, %ld images written and read back: none differs\n", tried,
           images);
    return 0;
}
