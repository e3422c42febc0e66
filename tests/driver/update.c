/* tealsettle_update over a flash in memory. Its driver fails in every call of every function, before, inside and after the
 * work; reads short, and says that it read more than it was asked for; lies about erases and programs, and about one bit of
 * what it read. Every order is compared with the reference. After each run the image that must load does, whole, and an
 * update over a driver that is well brings its own image. The first wrong answer ends the test. */
#include "../../include/tealsettle.h"
#include "../../reference/reference.h"

#include <limits.h>
#include <stdarg.h>
#include <stdio.h>
#include <stdlib.h>
#include <string.h>

enum { LENGTH = 32768, UPDATE = 16384, AREA = 8192, GOLDEN = REFERENCE_GOLDEN, SWITCH = 4092, WORDS = 20 };

static const uint8_t ON[4] = {0xAA, 0x99, 0x55, 0x66};

/* What a driver does wrong. */
typedef enum {
    NOTHING,
    FAIL_BEFORE, /* an error, and nothing is done; */
    FAIL_HALF,   /* an error, after half of the work; */
    FAIL_AFTER,  /* an error, after all of it */
    READ_LESS,   /* a read of one byte less than asked for, */
    READ_NONE,   /* of none, */
    READ_MORE,   /* of one more, */
    READ_MOST,   /* and of more than there can be */
    LIE_IDLE,    /* all is done, it says, and has done nothing, */
    LIE_HALF,    /* or half, */
    LIE_NOISE,   /* or left whatever an order may leave; a read has one bit wrong */
    FAULTS
} Fault;

typedef struct {
    uint8_t chip[LENGTH];
    const uint8_t *image, *ordered; /* the run's; and that of the last run that ordered the switch on */
    size_t image_length, ordered_length;
    Fault fault;
    size_t faulty_call, calls;     /* counted from 1; so far */
    int failed, answered;          /* whether it has failed; what it returned last */
    TealsettleAhead ahead;         /* the order that was told last */
    uint8_t seen[TEALSETTLE_PAGE]; /* what the last look was shown, zeros where it was shown nothing */
    ReferenceState state;          /* where the run is, by the reference */
} Driver;

static long runs, failures, stops, others;
static uint8_t golden[64], images[3][AREA];
static const size_t lengths[3] = {12, 300, AREA};

static _Noreturn void fail(const Driver *d, const char *format, ...)
{
    va_list rest;
    va_start(rest, format);
    fprintf(stderr, "driver: fault %d in call %zu, order %zu: ", (int)d->fault, d->faulty_call, d->ahead.order);
    vfprintf(stderr, format, rest);
    fprintf(stderr, "\n");
    va_end(rest);
    exit(1);
}

static void expect(const Driver *d, const char *what, size_t ours, size_t expected)
{
    if (ours != expected)
        fail(d, "%s is %zu, expected is %zu", what, ours, expected);
}

static uint8_t some_bits(void)
{
    static uint32_t seed = 1;
    seed = seed * 1664525 + 1013904223;
    return (uint8_t)(seed >> 24);
}

/* ---- The driver ---- */

/* Counts a call, and says what is wrong with it. After a failure there is none. */
static Fault begin_call(Driver *d)
{
    if (d->failed)
        fail(d, "the driver is called again after it failed");
    return ++d->calls == d->faulty_call ? d->fault : NOTHING;
}

static int end_call(Driver *d, int answer, int success)
{
    d->failed = answer != success;
    return d->answered = answer;
}

static void check_told(const Driver *d, uint32_t operation, size_t address, size_t length)
{
    if (d->ahead.operation != operation || d->ahead.address != address || d->ahead.length != length)
        fail(d, "what is carried out is not what was told");
}

/* How many bytes of an order are done. */
static size_t part_done(Fault fault, size_t length)
{
    switch (fault) {
    case FAIL_BEFORE:
    case LIE_IDLE:
        return 0;
    case FAIL_HALF:
    case LIE_HALF:
        return length / 2;
    default:
        return length;
    }
}

/* What an order may leave where the chip does not obey: in segment 0 each bit old or as ordered, elsewhere anything. */
static void put_noise(Driver *d, size_t address, uint8_t ordered)
{
    uint8_t old = d->chip[address], mask = some_bits();
    d->chip[address] = address < TEALSETTLE_SEGMENT ? (uint8_t)((old & mask) | (ordered & (uint8_t)~mask)) : mask;
}

static void put_byte(Driver *d, Fault fault, size_t address, uint8_t ordered)
{
    if (fault == LIE_NOISE)
        put_noise(d, address, ordered);
    else
        d->chip[address] = ordered;
}

/* What a driver answers that has failed: whatever is not 0. */
static int error_of(Fault fault)
{
    static const int errors[] = {[FAIL_BEFORE] = -5, [FAIL_HALF] = 1, [FAIL_AFTER] = INT_MIN};
    return fault != NOTHING && fault <= FAIL_AFTER ? errors[fault] : 0;
}

static int erase(void *context, size_t address, size_t length)
{
    Driver *d = context;
    Fault fault = begin_call(d);
    check_told(d, TEALSETTLE_ERASE, address, length);
    for (size_t i = 0; i < part_done(fault, length); i++)
        put_byte(d, fault, address + i, 0xFF);
    return end_call(d, error_of(fault), 0);
}

static void check_programmed(const Driver *d, const uint8_t *bytes, size_t length)
{
    ReferenceOrder order;
    if (reference_order(&d->state, d->image, d->image_length, &order) != 0 || memcmp(order.bytes, bytes, length) != 0)
        fail(d, "other bytes are programmed");
}

static int program(void *context, size_t address, const uint8_t *bytes, size_t length)
{
    Driver *d = context;
    Fault fault = begin_call(d);
    check_told(d, TEALSETTLE_PROGRAM, address, length);
    check_programmed(d, bytes, length);
    if (address == SWITCH)
        d->ordered = d->image, d->ordered_length = d->image_length;
    for (size_t i = 0; i < part_done(fault, length); i++)
        put_byte(d, fault, address + i, d->chip[address + i] & bytes[i]);
    return end_call(d, error_of(fault), 0);
}

/* How many bytes a read says that it has read. */
static int told_read(Fault fault, int length)
{
    switch (fault) {
    case FAIL_BEFORE:
        return -5;
    case FAIL_HALF:
        return INT_MIN;
    case FAIL_AFTER:
        return -length;
    case READ_LESS:
        return length - 1;
    case READ_NONE:
        return 0;
    case READ_MORE:
        return length + 1;
    case READ_MOST:
        return INT_MAX;
    default:
        return length;
    }
}

/* The first call of all reads the beginning of segment 1, before any order. */
static void check_look(const Driver *d, size_t address, size_t length)
{
    if (d->calls > 1)
        check_told(d, TEALSETTLE_LOOK, address, length);
    else if (address != TEALSETTLE_SEGMENT || length != TEALSETTLE_PAGE)
        fail(d, "the first read is not that of segment 1");
}

static int read_flash(void *context, size_t address, uint8_t *bytes, size_t length)
{
    Driver *d = context;
    Fault fault = begin_call(d);
    check_look(d, address, length);
    memset(d->seen, 0, sizeof d->seen);
    memcpy(d->seen, d->chip + address, part_done(fault, length));
    if (fault == LIE_NOISE)
        d->seen[some_bits() % length] ^= (uint8_t)(1u << some_bits() % 8);
    memcpy(bytes, d->seen, part_done(fault, length));
    return end_call(d, told_read(fault, (int)length), (int)length);
}

/* The order told is the reference's, with its number; the order before it was replied to. */
static int progress(void *context, const TealsettleAhead *ahead)
{
    Driver *d = context;
    ReferenceOrder order;
    size_t number, orders;
    Fault fault = begin_call(d);
    if (d->calls > 2)
        reference_advance(&d->state);
    d->ahead = *ahead;
    if (reference_order(&d->state, d->image, d->image_length, &order) != 0 ||
        reference_progress(&d->state, &number, &orders) != 0)
        fail(d, "an order after the end");
    expect(d, "the order's number", ahead->order, number);
    expect(d, "the number of orders", ahead->orders, orders);
    expect(d, "the phase", ahead->phase, d->state.phase);
    expect(d, "the operation", ahead->operation, order.operation);
    expect(d, "the address", ahead->address, order.address);
    expect(d, "the length", ahead->length, order.length);
    return end_call(d, error_of(fault), 0);
}

/* ---- Runs, and what must be there after them ---- */

static TealsettleUpdate run(Driver *d, const uint8_t *image, size_t image_length)
{
    TealsettleFlash flash = {TEALSETTLE_SPI, LENGTH, UPDATE, AREA, d, erase, program, read_flash, progress};
    d->image = image, d->image_length = image_length;
    d->calls = 0, d->failed = 0;
    d->ahead = (TealsettleAhead){.address = TEALSETTLE_SEGMENT}; /* of the read before the first order */
    d->state = (ReferenceState){LENGTH, UPDATE, AREA, image_length, 0, 0, 0};
    runs++;
    return tealsettle_update(&flash, image, image_length);
}

/* By the switch word the golden image loads, or the ordered one, and it stands whole. */
static void check_loads(const Driver *d)
{
    int on = memcmp(d->chip + SWITCH, ON, sizeof ON) == 0;
    const uint8_t *image = on ? d->ordered : golden;
    size_t length = on ? d->ordered_length : sizeof golden, place = on ? UPDATE : GOLDEN;
    TealsettleBoot boot = tealsettle_boot(TEALSETTLE_SPI, d->chip, LENGTH);
    TealsettleImage alone = tealsettle_image_check(TEALSETTLE_SPI, image, length);
    expect(d, "whether the chip loads", (size_t)tealsettle_loads(boot), 1);
    expect(d, "the switch", tealsettle_switch(TEALSETTLE_SPI, d->chip, LENGTH).on, (size_t)on);
    expect(d, "whether it jumped", boot.jumped, (size_t)on);
    expect(d, "the sync word's place", boot.sync, place + alone.sync);
    expect(d, "the end", boot.end, place + alone.end);
    expect(d, "the writes", boot.writes, alone.writes);
    if (memcmp(d->chip + place, image, length) != 0)
        fail(d, "the image does not stand whole");
}

/* The first address of the last look at which it was shown another byte than must stand there. */
static size_t first_wrong(const Driver *d)
{
    uint8_t padded_page[TEALSETTLE_PAGE];
    const uint8_t *expected = reference_expected_bytes(&d->state, d->image, padded_page);
    size_t i = 0;
    while (i < d->ahead.length && d->seen[i] == expected[i])
        i++;
    return d->ahead.address + i;
}

static void check_abandoned(const Driver *d, TealsettleUpdate result)
{
    expect(d, "the number", result.number, TEALSETTLE_ABANDONED);
    expect(d, "the place", result.place, d->ahead.address);
    if (result.driver != d->answered)
        fail(d, "the driver's answer is %d, expected is %d", result.driver, d->answered);
    expect(d, "the last order", result.order, d->ahead.order);
    expect(d, "how many orders", result.orders, d->ahead.orders);
    failures++;
}

/* The words of segment 1, as they were read, are not those of the chip's place. */
static void check_other_place(const Driver *d, const Driver *before, TealsettleUpdate result)
{
    expect(d, "the number", result.number, TEALSETTLE_OTHER_PLACE);
    expect(d, "the place", result.place, TEALSETTLE_SEGMENT);
    expect(d, "the other fields", (size_t)result.driver + result.order + result.orders, 0);
    if (memcmp(d->seen, before->chip + TEALSETTLE_SEGMENT, WORDS) == 0 || memcmp(d->chip, before->chip, LENGTH) != 0)
        fail(d, "another place, or the chip has changed");
    others++;
}

/* A lie is found by the next look at its bytes, or nothing is wrong with them. */
static void check_lied(const Driver *d, TealsettleUpdate result)
{
    static const uint32_t numbers[] = {0, 10, 0, 0, 11, 0, 12};
    expect(d, "the driver's answer", (size_t)result.driver, 0);
    if (d->fault == LIE_IDLE && d->faulty_call == 1)
        fail(d, "a place is named where nothing was read");
    if (result.number == 0) {
        expect(d, "the last order", result.order, result.orders);
        expect(d, "the switch", tealsettle_switch(TEALSETTLE_SPI, d->chip, LENGTH).on, 1);
        return;
    }
    expect(d, "the stop", result.number, numbers[d->state.phase]);
    expect(d, "the stop's place", result.place, first_wrong(d));
    stops++;
}

/* An update with one fault, on a chip with an older update that is ON; then one over a driver that is well. */
static int try_fault(Driver *d, const Driver *before, size_t call, Fault fault, const uint8_t *image, size_t image_length)
{
    *d = *before;
    d->faulty_call = call, d->fault = fault;
    TealsettleUpdate result = run(d, image, image_length);
    int met = d->calls >= call;
    if (d->failed)
        check_abandoned(d, result);
    else if (d->calls == 1)
        check_other_place(d, before, result);
    else
        check_lied(d, result);
    check_loads(d);
    d->faulty_call = 0;
    expect(d, "the next update", run(d, images[0], lengths[0]).number, 0);
    check_loads(d);
    return met;
}

static void try_faults(Driver *d, const Driver *before, const uint8_t *image, size_t image_length)
{
    for (Fault fault = FAIL_BEFORE; fault < FAULTS; fault++)
        for (size_t call = 1; try_fault(d, before, call, fault, image, image_length); call++)
            continue;
}

/* ---- Before the first order ---- */

/* A driver that lacks a function, or all: nothing is called. */
static void try_lacking(Driver *d)
{
    for (int lacking = 0; lacking < 4; lacking++) {
        TealsettleFlash flash = {TEALSETTLE_SPI, LENGTH, UPDATE, AREA, d, lacking == 0 ? NULL : erase,
                                 lacking == 1 ? NULL : program, lacking == 2 ? NULL : read_flash, progress};
        TealsettleUpdate result = tealsettle_update(lacking == 3 ? NULL : &flash, images[0], lengths[0]);
        expect(d, "without a function: the number", result.number, TEALSETTLE_ABANDONED);
        expect(d, "without a function: the rest", result.place + (size_t)result.driver + result.order + result.orders, 0);
    }
    expect(d, "without a function: the calls", d->calls, 0);
}

static void expect_refused(Driver *d, uint32_t number, size_t place, TealsettleFlash flash, const uint8_t *image, size_t length)
{
    TealsettleUpdate result = tealsettle_update(&flash, image, length);
    expect(d, "the refusal", result.number, number);
    expect(d, "the refusal's place", result.place, place);
    expect(d, "the refusal's other fields", (size_t)result.driver + result.order + result.orders, 0);
}

/* What a start refuses: nothing is called. */
static void try_refusals(Driver *d)
{
    static const uint8_t jumps[12] = {0xAA, 0x99, 0x55, 0x66, 0x30, 0x00, 0x80, 0x01, 0x00, 0x00, 0x00, 0x0F};
    TealsettleFlash good = {TEALSETTLE_SPI, LENGTH, UPDATE, AREA, d, erase, program, read_flash, progress};
    TealsettleFlash kind = good, length = good, update = good, area = good;
    kind.kind = 1, length.length = 12288, update.update = 8192, area.area = 0;
    expect_refused(d, 1, 0, kind, images[0], 12);
    expect_refused(d, 1, 0, length, images[0], 12);
    expect_refused(d, 2, 0, update, images[0], 12);
    expect_refused(d, 3, 0, area, images[0], 12);
    expect_refused(d, 4, 0, good, NULL, 0);
    expect_refused(d, 5, 11, good, images[0], 11);
    expect_refused(d, 6, 8, good, jumps, 12);
    expect(d, "after refusals: the calls", d->calls, 0);
}

/* An update place that the chip does not name, though a run could be started with it: nothing is written. */
static void try_other_place(Driver *d, const Driver *before)
{
    *d = *before;
    d->calls = 0;
    TealsettleFlash flash = {TEALSETTLE_SPI, LENGTH, UPDATE - 4096, AREA, d, erase, program, read_flash, progress};
    TealsettleUpdate result = tealsettle_update(&flash, images[0], lengths[0]);
    expect(d, "another place: the number", result.number, TEALSETTLE_OTHER_PLACE);
    expect(d, "another place: the calls", d->calls, 1);
    if (memcmp(d->chip, before->chip, LENGTH) != 0)
        fail(d, "another place: the chip has changed");
}

/* ---- A driver that only does its work, and a run that tells nobody of its orders ---- */

static int plain_erase(void *context, size_t address, size_t length)
{
    memset((uint8_t *)context + address, 0xFF, length);
    return 0;
}

static int plain_program(void *context, size_t address, const uint8_t *bytes, size_t length)
{
    uint8_t *chip = context;
    for (size_t i = 0; i < length; i++)
        chip[address + i] &= bytes[i];
    return 0;
}

static int plain_read(void *context, size_t address, uint8_t *bytes, size_t length)
{
    memcpy(bytes, (uint8_t *)context + address, length);
    return (int)length;
}

static void try_silent(Driver *d, const Driver *before)
{
    static uint8_t chip[LENGTH];
    TealsettleFlash flash = {TEALSETTLE_SPI, LENGTH, UPDATE, AREA, chip, plain_erase, plain_program, plain_read, NULL};
    memcpy(chip, before->chip, LENGTH);
    TealsettleUpdate silent = tealsettle_update(&flash, images[1], lengths[1]);
    *d = *before;
    TealsettleUpdate told = run(d, images[1], lengths[1]);
    expect(d, "an update that tells nobody", silent.number, told.number);
    expect(d, "its last order", silent.order, told.order);
    if (memcmp(chip, d->chip, LENGTH) != 0)
        fail(d, "an update that tells nobody leaves another chip");
}

/* ---- Images and chips ---- */

static size_t put_word(uint8_t *image, size_t at, uint32_t word)
{
    for (int shift = 24; shift >= 0; shift -= 8)
        image[at++] = (uint8_t)(word >> shift);
    return at;
}

/* An image of one packet, or none, and DESYNC. */
static void make_image(uint8_t *image, size_t length)
{
    size_t words = length > 12 ? length / 4 - 4 : 0, at = put_word(image, 0, 0xAA995566);
    if (words > 0)
        at = put_word(image, at, 0x30004000 | (uint32_t)words);
    for (size_t i = 0; i < words; i++)
        at = put_word(image, at, (uint32_t)(0x9E3779B9u * (i + length)));
    at = put_word(image, at, 0x30008001);
    put_word(image, at, 0x0000000D);
}

int main(void)
{
    static Driver before, d;
    make_image(golden, sizeof golden);
    for (int i = 0; i < 3; i++)
        make_image(images[i], lengths[i]);
    expect(&d, "the build", tealsettle_build(TEALSETTLE_SPI, LENGTH, UPDATE, AREA, golden, sizeof golden, before.chip, LENGTH).number, 0);
    try_lacking(&before);
    try_refusals(&before);
    for (int i = 0; i < 3; i++) {
        expect(&before, "an update", run(&before, images[i], lengths[i]).number, 0);
        check_loads(&before);
    }
    try_other_place(&d, &before);
    try_silent(&d, &before);
    for (int i = 0; i < 3; i++)
        try_faults(&d, &before, images[i], lengths[i]);
    printf("driver: %ld runs, of which %ld were abandoned, %ld stopped and %ld not begun: golden or the ordered image loaded each time, whole\n",
           runs, failures, stops, others);
    return 0;
}
