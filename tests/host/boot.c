/* tealsettle_boot, tealsettle_write, tealsettle_image_check and tealsettle_build beside the reference: random images
 * and chips, good and damaged, short and long, built and not. Answers, every write and every byte of the buffer are
 * compared. Prints how many were tried. */
#include "chips.h"

#include <stdlib.h>

enum { IMAGES = 1000000, CHIPS = 60000, BUILDS = 60000, LARGE = 8, MARK = 0x5A };

static const size_t longest = REFERENCE_CHIP_MAX;

/* Images. */

static int try_image(const uint8_t *image, size_t length)
{
    uint32_t kind = some_kind();
    ReferenceBoot m = {.number = TEALSETTLE_REFUSED_BAD_CHIP_LENGTH};
    if (kind == TEALSETTLE_SPI)
        m = reference_image_check(image, length, longest);
    TealsettleImage r = tealsettle_image_check(kind, image, length);
    tried++, answers[m.number]++;
    return differs("image: number", r.number, m.number) || differs("image: place", r.place, m.place) ||
           differs("image: sync", r.sync, m.sync) || differs("image: end", r.end, m.end) ||
           differs("image: writes", r.writes, m.writes);
}

/* What chips load. */

static int try_write(uint32_t kind, const uint8_t *chip, size_t length, size_t i, const ReferenceBoot *boot)
{
    TealsettleWrite r = tealsettle_write(kind, chip, length, i);
    int found = i < boot->writes;
    ReferenceWrite w = found ? list[i] : (ReferenceWrite){0, 0, 0};
    return differs("write: number", r.number, boot->number) || differs("write: place", r.place, 0) ||
           differs("write: found", r.found, (size_t)found) || differs("write: register", r.register_number, w.register_number) ||
           differs("write: word", r.word, w.word) || differs("write: place of the word", r.word_place, w.place);
}

/* All writes of a chip, or some where there are many; then one past the end, and far beyond. */
static int try_writes(uint32_t kind, const uint8_t *chip, size_t length, const ReferenceBoot *boot)
{
    size_t count = boot->writes, each = count < 40 ? count : 6;
    for (size_t i = 0; i < each; i++)
        if (try_write(kind, chip, length, count < 40 ? i : below(min(count, LISTED)), boot))
            return 1;
    return try_write(kind, chip, length, count, boot) || (one_in(8) && try_write(kind, chip, length, SIZE_MAX - below(9), boot));
}

static int try_boot(const uint8_t *chip, size_t length)
{
    uint32_t kind = some_kind();
    ReferenceBoot m = {.number = TEALSETTLE_REFUSED_BAD_CHIP_LENGTH};
    if (kind == TEALSETTLE_SPI)
        m = reference_boot_list(chip, length, list, LISTED);
    TealsettleBoot r = tealsettle_boot(kind, chip, length);
    tried++, count_boot(&m);
    return differs("boot: number", r.number, m.number) || differs("boot: place", r.place, m.place) ||
           differs("boot: stuck", r.stuck, (size_t)m.stuck) || differs("boot: jumped", r.jumped, (size_t)m.jumped) ||
           differs("boot: sync", r.sync, m.sync) || differs("boot: end", r.end, m.end) ||
           differs("boot: writes", r.writes, m.writes) ||
           differs("boot: whether it loads", (size_t)tealsettle_loads(r), m.number == 0 && !m.stuck) ||
           try_writes(kind, chip, length, &m);
}

/* The builder. */

/* One of the numbers of a layout, now and then a wrong one. */
static size_t some_number(size_t least, size_t most)
{
    size_t n = some_multiple(least, most);
    return !one_in(20) ? n : one_in(2) ? n + 1 + below(4095) : n - 4096 * below(8);
}

static void switch_nearly_on(void)
{
    for (int i = 0; i < 4; i++)
        chip[4092 + i] = (uint8_t)(ON[i] | (one_in(12) ? 1u << below(8) : 0));
}

/* A chip that was built and then changed: ON or nearly, with an image at U, now and then damaged. */
static int try_changed(size_t length, size_t update)
{
    switch_nearly_on();
    make_stream(below(8), one_in(4));
    put_stream(update, length);
    for (size_t i = one_in(3) ? 1 + below(3) : 0; i > 0; i--)
        chip[one_in(2) ? 4092 + below(24) : below(length)] ^= (uint8_t)(1u << below(8));
    return try_boot(chip, length);
}

/* A golden image in `stream`, now and then one that fills its area, or has one byte more. */
static void make_golden(size_t update)
{
    make_stream(one_in(50) ? 1500 : below(10), one_in(5));
    if (one_in(5))
        damage_stream();
    if (one_in(10) && update > 8192 + stream_length && update < SMALL)
        stream_length = update - 8192 + below(2);
}

static int try_build(void)
{
    static uint8_t theirs[SMALL];
    uint32_t kind = some_kind(), number = TEALSETTLE_REFUSED_BAD_CHIP_LENGTH;
    size_t length = some_number(16384, SMALL - 4096), update = some_number(12288, length - 4096);
    size_t area = one_in(30) ? SIZE_MAX - 4095 : some_number(4096, length > update ? length - update : 4096);
    size_t room = one_in(10) ? below(SMALL) : SMALL, place = 0;
    make_golden(update);
    memset(chip, MARK, sizeof chip);
    memset(theirs, MARK, sizeof theirs);
    if (kind == TEALSETTLE_SPI)
        number = reference_build(length, update, area, stream, stream_length, theirs, room, &place);
    TealsettleBuild r = tealsettle_build(kind, length, update, area, stream, stream_length, chip, room);
    tried++, answers[number]++;
    if (differs("build: number", r.number, number) || differs("build: place", r.place, place) ||
        bytes_differ("build: the buffer's bytes", chip, theirs, sizeof chip))
        return 1;
    return number == 0 && (try_boot(chip, length) || try_changed(length, update));
}

/* Chips and images of the greatest lengths, and just beyond: packets of many words, to the last byte. */
static int try_large(void)
{
    size_t length = longest + (one_in(2) ? 0 : 1 + below(4096));
    uint8_t *bytes = malloc(length);
    if (!bytes)
        return 1;
    memset(bytes, 0xFF, length);
    size_t words = (longest - 32) / 4 - below(3);
    stream_length = 0;
    put_word(0xAA995566u), put_header(2, 0), put_word(0x50000000u | (uint32_t)words);
    memcpy(bytes, stream, stream_length);
    stream_length = 0;
    put_header(4, 1), put_word(one_in(2) ? 0x0D : 0x0F);
    memcpy(bytes + 12 + 4 * words, stream, stream_length);
    int failed = try_image(bytes, length) || try_boot(bytes, length) || try_image(bytes, longest) || try_boot(bytes, longest);
    free(bytes);
    return failed;
}

static int try_some_image(void)
{
    make_stream(below(10), one_in(2));
    for (size_t k = one_in(2) ? 1 + below(3) : 0; k > 0; k--)
        damage_stream();
    return try_image(stream, stream_length);
}

static int try_some_chip(void)
{
    size_t length = make_chip();
    return try_boot(chip, length);
}

int main(void)
{
    if (try_often(IMAGES, try_some_image) || try_often(CHIPS, try_some_chip) || try_often(BUILDS, try_build) || try_often(LARGE, try_large))
        return 1;
    printf("host test: %ld images, chips and builds tried, none differs (good %ld", tried, answers[0]);
    print_boots();
    printf(")\n");
    return 0;
}
