/* A whole run on a 16 MiB chip, through the calls that a C host makes, beside the reference, which asks the same
 * questions. Both drive the same flash. */
#include "bench.h"

#include <stdio.h>
#include <stdlib.h>
#include <string.h>

#include "../include/tealsettle.h"
#include "../reference/reference.h"

enum { UPDATE = 12288, AREA = MIB16 - UPDATE, PAGE = 256 };

/* A flash chip in memory. An idle one does nothing, and a look points at the bytes that must stand there: what
 * is left of a run's time is that of the calls. */
typedef struct {
    uint8_t *chip, page[PAGE], erased[PAGE];
    int idle;
} Flash;

static const uint8_t *idle_look(const Flash *f, size_t address)
{
    static const uint8_t on[4] = {0xAA, 0x99, 0x55, 0x66};
    return address >= UPDATE ? f->chip + address : address == 4092 ? on : f->erased;
}

static void flash_program(uint8_t *restrict span, const uint8_t *restrict bytes, size_t length)
{
    for (size_t i = 0; i < length; i++)
        span[i] &= bytes[i];
}

/* Carries an order out, and points at the bytes read; at some byte where none are. */
static const uint8_t *carry_out(Flash *f, uint32_t operation, size_t address, size_t length, const uint8_t *bytes)
{
    if (f->idle)
        return idle_look(f, address);
    if (operation == TEALSETTLE_ERASE)
        memset(f->chip + address, 0xFF, length);
    else if (operation == TEALSETTLE_PROGRAM)
        flash_program(f->chip + address, bytes, length);
    else
        memcpy(f->page, f->chip + address, length);
    return f->page;
}

/* A run: what it is given, and what it came to. */
typedef struct {
    Flash *flash;
    const uint8_t *image;
    uint32_t number, ended, outcome;
    size_t place, orders;
} Run;

static int ours_run(void *context)
{
    Run *r = context;
    TealsettleStart start = tealsettle_start(TEALSETTLE_SPI, MIB16, UPDATE, AREA, r->image, AREA);
    TealsettleState s = start.state;
    TealsettleFinished finished = {0};
    r->number = start.number, r->place = start.place, r->orders = 0;
    while (r->number == 0) {
        finished = tealsettle_finished(TEALSETTLE_SPI, TEALSETTLE_STATE(s));
        if (finished.ended)
            break;
        TealsettleOrder o = tealsettle_order(TEALSETTLE_SPI, TEALSETTLE_STATE(s), r->image, AREA);
        int look = o.operation == TEALSETTLE_LOOK;
        const uint8_t *read = carry_out(r->flash, o.operation, o.address, o.length, o.bytes);
        TealsettleReply reply = tealsettle_reply(TEALSETTLE_SPI, TEALSETTLE_STATE(s), r->image, AREA,
                                                 look ? TEALSETTLE_READ : TEALSETTLE_DONE, read, look ? o.length : 0);
        s = reply.state;
        r->number = reply.number, r->place = reply.place, r->orders++;
    }
    r->ended = finished.ended, r->outcome = finished.outcome;
    return 1;
}

static int reference_run(void *context)
{
    Run *r = context;
    ReferenceState s;
    int ended = 0;
    r->number = reference_start(&s, MIB16, UPDATE, AREA, r->image, AREA, &r->place);
    r->outcome = 0, r->orders = 0;
    while (r->number == 0) {
        ReferenceOrder o;
        reference_finished(&s, &ended, &r->outcome);
        if (ended)
            break;
        reference_order(&s, r->image, AREA, &o);
        int look = o.operation == TEALSETTLE_LOOK;
        const uint8_t *read = carry_out(r->flash, o.operation, o.address, o.length, o.bytes);
        r->number = reference_reply(&s, r->image, AREA, look ? TEALSETTLE_READ : TEALSETTLE_DONE, read, look ? o.length : 0,
                                    &r->place);
        r->orders++;
    }
    r->ended = (uint32_t)ended;
    return 1;
}

/* A sum of the chip's bytes that tells where they stand. */
static size_t chip_sum(const uint8_t *chip)
{
    size_t sum = 0;
    for (size_t i = 0; i < MIB16; i += 8) {
        uint64_t eight;
        memcpy(&eight, chip + i, 8);
        sum = (sum ^ eight) * 0x9E3779B97F4A7C15u;
    }
    return sum;
}

static Answer run_answer(void *context)
{
    Run *r = context;
    return (Answer){{"number", "place", "ended", "outcome", "orders", "sum of the chip's bytes"},
                    {r->number, r->place, r->ended, r->outcome, r->orders, chip_sum(r->flash->chip)}};
}

/* ---- Both side by side, every field of every answer ---- */

static void same(const char *what, size_t order, size_t ours, size_t theirs)
{
    if (ours == theirs)
        return;
    printf("run, order %zu: %s is %zu, but the reference has %zu\n", order, what, ours, theirs);
    exit(1);
}

static void same_state(size_t order, const TealsettleState *s, const ReferenceState *p)
{
    same("length", order, s->length, p->length);
    same("update", order, s->update, p->update);
    same("area", order, s->area, p->area);
    same("image_length", order, s->image_length, p->image_length);
    same("phase", order, s->phase, p->phase);
    same("index", order, s->index, p->index);
    same("outcome", order, s->outcome, p->outcome);
}

static void same_order(size_t order, const TealsettleOrder *o, const ReferenceOrder *p)
{
    same("operation", order, o->operation, p->operation);
    same("address", order, o->address, p->address);
    same("length of the order", order, o->length, p->length);
    if (p->operation == TEALSETTLE_PROGRAM)
        same("difference of the bytes to program", order, memcmp(o->bytes, p->bytes, p->length) != 0, 0);
}

/* One order of both, up to both replies. */
static void same_step(Flash *flash, const uint8_t *image, size_t k, TealsettleState *s, ReferenceState *p)
{
    ReferenceOrder theirs = {0};
    size_t place;
    TealsettleOrder o = tealsettle_order(TEALSETTLE_SPI, TEALSETTLE_STATE(*s), image, AREA);
    same("number of the order", k, o.number, reference_order(p, image, AREA, &theirs));
    same_order(k, &o, &theirs);
    const uint8_t *read = carry_out(flash, o.operation, o.address, o.length, o.bytes);
    uint32_t reply_kind = o.operation == TEALSETTLE_LOOK ? TEALSETTLE_READ : TEALSETTLE_DONE;
    size_t length = o.operation == TEALSETTLE_LOOK ? o.length : 0;
    TealsettleReply r = tealsettle_reply(TEALSETTLE_SPI, TEALSETTLE_STATE(*s), image, AREA, reply_kind, read, length);
    same("number of the reply", k, r.number, reference_reply(p, image, AREA, reply_kind, read, length, &place));
    same("place", k, r.place, place);
    same_state(k, &r.state, p);
    *s = r.state;
}

static void same_run(Flash *flash, const uint8_t *image)
{
    ReferenceState theirs = {0};
    size_t place, orders = 0;
    TealsettleStart start = tealsettle_start(TEALSETTLE_SPI, MIB16, UPDATE, AREA, image, AREA);
    same("number of the start", 0, start.number, reference_start(&theirs, MIB16, UPDATE, AREA, image, AREA, &place));
    same("place", 0, start.place, place);
    TealsettleState s = start.state;
    for (same_state(0, &s, &theirs); s.phase < 7; orders++)
        same_step(flash, image, orders, &s, &theirs);
    same("orders in all", orders, tealsettle_total(TEALSETTLE_SPI, MIB16, UPDATE, AREA, AREA).orders, orders);
}

/* ---- Rows ---- */

static Flash make_flash(int idle)
{
    Flash f = {.chip = buffer(MIB16), .idle = idle};
    memset(f.chip, 0xFF, MIB16);
    memset(f.erased, 0xFF, sizeof f.erased);
    return f;
}

void update_rows(void)
{
    uint8_t *image = buffer(AREA);
    make_long_packet(image, AREA);
    Flash ours_flash = make_flash(0), peer_flash = make_flash(0);
    same_run(&ours_flash, image);
    Run ours = {.flash = &ours_flash, .image = image}, peer = {.flash = &peer_flash, .image = image};
    Row row = {"update: a whole run", AREA, {"tealsettle", ours_run, run_answer, &ours},
               {PLAIN_C, reference_run, run_answer, &peer}};
    table_row(&row);
    ours_flash.idle = peer_flash.idle = 1;
    row.name = "update: the calls of a whole run";
    table_row(&row);
    free(image), free(ours_flash.chip), free(peer_flash.chip);
}
