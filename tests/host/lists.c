/* tealsettle_writes, tealsettle_image_writes, tealsettle_next_write and tealsettle_report beside the reference: random
 * chips and images, good and damaged, that jump or are stuck. Every write of a list and every byte of a report is compared,
 * and the steps of cursors that no list has. Prints how many were tried. */
#include "chips.h"

#include <stdlib.h>

enum { CHIPS = 60000, IMAGES = 200000, CURSORS = 2000000, MARK = 0x5A, LINE = 27, ENDS = 64 };

static const ReferenceCursor no_cursor;
static const ReferenceWrite no_write;

/* Steps. */

static int cursor_differs(const char *what, TealsettleCursor ours, ReferenceCursor expected)
{
    if (ours.at == expected.at && ours.register_number == expected.register_number && ours.left == expected.left &&
        ours.remaining == expected.remaining)
        return 0;
    printf("input %ld: %s is %zu %u %zu %zu, expected is %zu %u %zu %zu\n", tried, what, TEALSETTLE_CURSOR(ours),
           TEALSETTLE_CURSOR(expected));
    return 1;
}

static int step_differs(TealsettleStep r, uint32_t number, int found, ReferenceWrite w)
{
    return differs("step: number", r.number, number) || differs("step: place", r.place, 0) ||
           differs("step: found", r.found, (size_t)found) || differs("step: register", r.register_number, w.register_number) ||
           differs("step: word", r.word, w.word) || differs("step: place of the word", r.word_place, w.place);
}

static TealsettleStep next(TealsettleCursor c, const uint8_t *bytes, size_t length)
{
    return tealsettle_next_write(TEALSETTLE_SPI, TEALSETTLE_CURSOR(c), bytes, length);
}

/* A step beside the reference's, whose cursor goes on. */
static int next_differs(TealsettleStep r, ReferenceCursor *c, const uint8_t *bytes, size_t length, ReferenceWrite *w)
{
    *w = no_write;
    int found = reference_next_write(c, bytes, length, w);
    if (!found)
        *c = no_cursor;
    return step_differs(r, 0, found, *w) || cursor_differs("cursor after a step", r.cursor, *c);
}

static int nothing_left(TealsettleCursor c, const uint8_t *bytes, size_t length)
{
    TealsettleStep r = next(c, bytes, length);
    return !step_differs(r, 0, 0, no_write) && !cursor_differs("cursor after the last step", r.cursor, no_cursor);
}

/* The first `count` steps are the writes of `list`, and then there is none, however often it is asked. */
static int steps_differ(TealsettleCursor c, const uint8_t *bytes, size_t length, size_t count)
{
    ReferenceCursor expected = {TEALSETTLE_CURSOR(c)};
    ReferenceWrite w;
    for (size_t k = 0; k < count; k++) {
        TealsettleStep r = next(c, bytes, length);
        if (next_differs(r, &expected, bytes, length, &w) || step_differs(r, 0, 1, list[k]))
            return 1;
        c = r.cursor;
    }
    return !nothing_left(c, bytes, length) || !nothing_left((TealsettleCursor){0}, bytes, length);
}

/* Every step again, by index: the chip is read anew for each, so only where they are few. */
static int writes_differ(TealsettleCursor c, const uint8_t *bytes, size_t length, size_t count)
{
    for (size_t i = 0; count < 40 && i <= count; i++) {
        TealsettleStep s = next(c, bytes, length);
        TealsettleWrite w = tealsettle_write(TEALSETTLE_SPI, bytes, length, i);
        if (step_differs(s, w.number, (int)w.found, (ReferenceWrite){w.register_number, w.word, w.word_place}))
            return 1;
        c = s.cursor;
    }
    return 0;
}

/* Lists. */

/* A cursor before the first write that a reading counts; for one that lists none it is all zeros. */
static int listing_differs(TealsettleListing r, const ReferenceBoot *boot)
{
    int listed = boot->number == 0 && !boot->stuck;
    ReferenceCursor first = listed ? (ReferenceCursor){boot->sync + 4, 0, 0, boot->writes} : no_cursor;
    return differs("list: number", r.number, boot->number) || differs("list: place", r.place, boot->stuck ? 0 : boot->place) ||
           cursor_differs("list: cursor", r.cursor, first);
}

static int chip_list_differs(uint32_t kind, size_t length, const ReferenceBoot *boot)
{
    TealsettleListing r = tealsettle_writes(kind, chip, length);
    return listing_differs(r, boot) || steps_differ(r.cursor, chip, length, boot->writes) ||
           (boot->number == 0 && writes_differ(r.cursor, chip, length, boot->writes));
}

/* A kind that is none is refused whatever the cursor. */
static int wrong_kind_differs(uint32_t kind, TealsettleCursor c, size_t length)
{
    TealsettleStep r = tealsettle_next_write(kind, TEALSETTLE_CURSOR(c), chip, length);
    return kind != TEALSETTLE_SPI && (step_differs(r, TEALSETTLE_REFUSED_BAD_CHIP_LENGTH, 0, no_write) ||
                                      cursor_differs("cursor of a wrong kind", r.cursor, no_cursor));
}

/* The reference lists a chip: an image that it accepts loads the same from the front of one. */
static void list_image(const uint8_t *image, size_t length)
{
    memset(chip, 0xFF, sizeof chip);
    memcpy(chip, image, length);
    reference_boot_list(chip, sizeof chip, list, LISTED);
}

static int try_image(void)
{
    uint32_t kind = some_kind();
    ReferenceBoot m = {.number = TEALSETTLE_REFUSED_BAD_CHIP_LENGTH};
    do
        make_stream(below(10), one_in(3));
    while (stream_length > SMALL / 2);
    for (size_t k = one_in(2) ? 1 + below(3) : 0; k > 0; k--)
        damage_stream();
    if (kind == TEALSETTLE_SPI)
        m = reference_image_check(stream, stream_length, REFERENCE_CHIP_MAX);
    if (m.number == 0)
        list_image(stream, stream_length);
    TealsettleListing r = tealsettle_image_writes(kind, stream, stream_length);
    tried++, answers[m.number]++;
    return listing_differs(r, &m) || steps_differ(r.cursor, stream, stream_length, m.writes);
}

/* Reports. */

static uint8_t text[LINE * LISTED + ENDS]; /* the report of the chip that was read last */

/* The report in a buffer with so much room, and what is then in the buffer and after it. */
static int report_differs(uint32_t kind, size_t length, size_t room, uint32_t number, size_t printed)
{
    static uint8_t ours[sizeof text + 8], expected[sizeof text + 8];
    memset(ours, MARK, room + 8);
    memset(expected, MARK, room + 8);
    if (number == 0)
        memcpy(expected, text, printed);
    TealsettleReport r = tealsettle_report(kind, chip, length, ours, room);
    return differs("report: number", r.number, number) || differs("report: place", r.place, 0) ||
           differs("report: length", r.length, number == 0 ? printed : 0) ||
           bytes_differ("the buffer's bytes", ours, expected, room + 8);
}

/* With room for just the report, for some bytes more, and for too few: one, or some. */
static int reports_differ(uint32_t kind, size_t length, const ReferenceBoot *boot)
{
    if (boot->number != 0)
        return report_differs(kind, length, below(200), boot->number, 0);
    size_t printed = reference_report(boot, list, text), enough = LINE * boot->writes + ENDS;
    return differs("report: longer than its bound", printed > enough, 0) || report_differs(kind, length, printed, 0, printed) ||
           report_differs(kind, length, enough, 0, printed) ||
           report_differs(kind, length, printed - 1, TEALSETTLE_REFUSED_NO_ROOM, printed) ||
           report_differs(kind, length, below(printed), TEALSETTLE_REFUSED_NO_ROOM, printed);
}

static int try_chip(void)
{
    uint32_t kind = some_kind();
    size_t length = make_chip();
    ReferenceBoot m = {.number = TEALSETTLE_REFUSED_BAD_CHIP_LENGTH};
    if (kind == TEALSETTLE_SPI)
        m = reference_boot_list(chip, length, list, LISTED);
    tried++, count_boot(&m);
    return chip_list_differs(kind, length, &m) || wrong_kind_differs(kind, (TealsettleCursor){4, 4, 1, 1}, length) ||
           reports_differ(kind, length, &m);
}

/* Cursors of any numbers. */

static size_t any_number(size_t near)
{
    return one_in(4) ? (size_t)next_random() : one_in(4) ? SIZE_MAX - below(9) : one_in(3) ? below(3) : below(near + 9);
}

static long found;

static int try_cursor(void)
{
    if (tried % 16 == 0)
        make_stream(below(12), one_in(3));
    size_t length = one_in(4) ? below(stream_length + 1) : stream_length;
    TealsettleCursor c = {any_number(length), (uint32_t)(one_in(2) ? below(32) : next_random()), any_number(4), any_number(8)};
    ReferenceCursor expected = {TEALSETTLE_CURSOR(c)};
    ReferenceWrite w;
    TealsettleStep r = next(c, stream, length);
    tried++, found += (long)r.found;
    return next_differs(r, &expected, stream, length, &w);
}

/* The longest chip, full of packets of one word: each write is known from its making. */
static int try_longest(void)
{
    size_t length = REFERENCE_CHIP_MAX, packets = (length - 12) / 8, at = 4;
    uint8_t *bytes = malloc(length);
    if (!bytes)
        return 1;
    memset(bytes, 0xFF, length);
    memcpy(bytes, ON, 4);
    for (size_t i = 0; i < packets; i++, at += 8)
        memcpy(bytes + at, i == packets - 1 ? "\x30\x00\x80\x01\x00\x00\x00\x0D" : "\x30\x00\x40\x01\x01\x02\x03\x04", 8);
    TealsettleCursor c = tealsettle_writes(TEALSETTLE_SPI, bytes, length).cursor;
    int failed = differs("the longest chip: writes", c.remaining, packets);
    for (size_t i = 0; i < packets && !failed; i++) {
        TealsettleStep r = next(c, bytes, length);
        int last = i == packets - 1;
        failed = step_differs(r, 0, 1, (ReferenceWrite){last ? 4 : 2, last ? 0x0D : 0x01020304, 8 + 8 * i});
        c = r.cursor;
    }
    failed = failed || !nothing_left(c, bytes, length);
    free(bytes);
    return failed;
}

int main(void)
{
    if (try_often(CURSORS, try_cursor))
        return 1;
    tried = 0;
    if (try_often(CHIPS, try_chip) || try_often(IMAGES, try_image) || try_longest())
        return 1;
    printf("host test: %ld lists and reports and %d cursors tried, none differs (cursors that found a write %ld, images listed %ld",
           tried, CURSORS, found, answers[0]);
    print_boots();
    printf(")\n");
    return 0;
}
