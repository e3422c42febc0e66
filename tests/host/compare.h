/* The library's answers beside the reference's. A difference is printed. The library is asked for a kind of chip, of
 * which the reference knows one: every other kind is refused before all else. */
#ifndef COMPARE_H
#define COMPARE_H

#include "../../include/tealsettle.h"
#include "../../reference/reference.h"

#include <stdio.h>
#include <string.h>

static long tried;

static inline int differs(const char *what, size_t ours, size_t expected)
{
    if (ours == expected)
        return 0;
    printf("input %ld: %s is %zu, expected is %zu\n", tried, what, ours, expected);
    return 1;
}

static inline int bytes_differ(const char *what, const uint8_t *ours, const uint8_t *expected, size_t length)
{
    if (memcmp(ours, expected, length) == 0)
        return 0;
    printf("input %ld: %s are not those expected\n", tried, what);
    return 1;
}

static inline int state_differs(const char *what, TealsettleState ours, ReferenceState expected)
{
    if (ours.length == expected.length && ours.update == expected.update && ours.area == expected.area &&
        ours.image_length == expected.image_length && ours.phase == expected.phase && ours.index == expected.index &&
        ours.outcome == expected.outcome)
        return 0;
    printf("input %ld: %s is %zu %zu %zu %zu, phase %u index %zu outcome %u,\n"
           "expected is %zu %zu %zu %zu, phase %u index %zu outcome %u\n",
           tried, what, TEALSETTLE_STATE(ours), TEALSETTLE_STATE(expected));
    return 1;
}

static inline int start_differs(uint32_t kind, ReferenceState given, const uint8_t *image, TealsettleStart r)
{
    ReferenceState first = {0};
    size_t place = 0;
    uint32_t number = TEALSETTLE_REFUSED_BAD_CHIP_LENGTH;
    if (kind == TEALSETTLE_SPI)
        number = reference_start(&first, given.length, given.update, given.area, image, given.image_length, &place);
    return differs("start: number", r.number, number) || differs("start: place", r.place, place) ||
           state_differs("start: state", r.state, first);
}

static inline int total_differs(uint32_t kind, ReferenceState given, TealsettleTotal r)
{
    size_t orders = 0;
    uint32_t number = TEALSETTLE_REFUSED_BAD_CHIP_LENGTH;
    if (kind == TEALSETTLE_SPI)
        number = reference_total(given.length, given.update, given.area, given.image_length, &orders);
    return differs("total: number", r.number, number) || differs("total: place", r.place, 0) ||
           differs("total: orders", r.orders, orders);
}

static inline int order_differs(uint32_t kind, ReferenceState s, const uint8_t *image, size_t lent, const TealsettleOrder *r)
{
    ReferenceOrder o = {0};
    uint8_t padded_page[TEALSETTLE_PAGE];
    uint32_t number = kind == TEALSETTLE_SPI ? reference_order(&s, image, lent, &o) : TEALSETTLE_REFUSED_BAD_STATE;
    memset(padded_page, 0xFF, sizeof padded_page);
    if (o.operation == TEALSETTLE_PROGRAM)
        memcpy(padded_page, o.bytes, o.length);
    return differs("order: number", r->number, number) || differs("order: place", r->place, 0) ||
           differs("order: operation", r->operation, o.operation) || differs("order: address", r->address, o.address) ||
           differs("order: length", r->length, o.length) ||
           bytes_differ("order: bytes", r->bytes, padded_page, sizeof padded_page);
}

typedef struct {
    uint32_t number;
    size_t place;
    ReferenceState state;
} ExpectedReply;

static inline ExpectedReply expected_reply(uint32_t kind, ReferenceState s, const uint8_t *image, size_t lent,
                                           uint32_t reply_kind, const uint8_t *bytes, size_t length)
{
    ExpectedReply e = {TEALSETTLE_REFUSED_BAD_STATE, 0, s};
    if (kind == TEALSETTLE_SPI)
        e.number = reference_reply(&e.state, image, lent, reply_kind, bytes, length, &e.place);
    return e;
}

static inline int reply_differs(TealsettleReply r, ExpectedReply e)
{
    return differs("reply: number", r.number, e.number) || differs("reply: place", r.place, e.place) ||
           differs("reply: stopped", r.stopped, e.number > TEALSETTLE_REFUSED_BAD_REPLY) ||
           state_differs("reply: state", r.state, e.state);
}

static inline int finished_differs(uint32_t kind, ReferenceState s, TealsettleFinished r)
{
    int ended = 0;
    uint32_t outcome = 0, number = TEALSETTLE_REFUSED_BAD_STATE;
    if (kind == TEALSETTLE_SPI)
        number = reference_finished(&s, &ended, &outcome);
    return differs("finished: number", r.number, number) || differs("finished: place", r.place, 0) ||
           differs("finished: ended", r.ended, (size_t)ended) || differs("finished: outcome", r.outcome, outcome);
}

static inline int progress_differs(uint32_t kind, ReferenceState s, TealsettleProgress r)
{
    size_t order = 0, orders = 0;
    uint32_t number = TEALSETTLE_REFUSED_BAD_STATE;
    if (kind == TEALSETTLE_SPI)
        number = reference_progress(&s, &order, &orders);
    return differs("progress: number", r.number, number) || differs("progress: place", r.place, 0) ||
           differs("progress: order", r.order, order) || differs("progress: orders", r.orders, orders);
}

static inline int try_often(long count, int (*try)(void))
{
    for (long i = 0; i < count; i++)
        if (try())
            return 1;
    return 0;
}

/* What was answered, and how often: by the number of a refusal, 0 where there was none. */

enum { NUMBERS = TEALSETTLE_REFUSED_BAD_HEAVIEST_LENGTH + 1 };

static inline void print_refusals(const long *answers)
{
    for (int n = 1; n < NUMBERS; n++)
        if (answers[n])
            printf(", %d %ld", n, answers[n]);
}

#endif
