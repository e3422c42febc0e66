/* A run's calls beside the reference: tealsettle_order, tealsettle_reply, tealsettle_finished, tealsettle_progress,
 * tealsettle_total and tealsettle_start, with states that fit and states that do not, true replies and others; half of them
 * through the functions that take the state itself. Every field is compared. Prints how many were tried. */
#include "compare.h"
#include "make.h"

enum { STATES = 1500000, STARTS = 300000, LARGEST = REFERENCE_CHIP_MAX };

static uint8_t image[LARGEST];
static long answers[NUMBERS];

static uint32_t some_stop(void)
{
    return TEALSETTLE_STOPPED_SWITCH_NOT_ERASED + (uint32_t)below(3);
}

static ReferenceState some_state(void)
{
    ReferenceState s = {0};
    s.length = one_in(20) ? LARGEST : some_multiple(16384, 65536);
    s.update = some_multiple(12288, s.length - 4096);
    s.area = some_multiple(4096, s.length - s.update);
    s.image_length = one_in(5) ? s.area : 1 + below(one_in(2) ? min(s.area, 600) : s.area);
    s.phase = (uint32_t)below(8);
    size_t orders = reference_orders_in_phase(&s);
    s.index = s.phase == REFERENCE_ENDED ? 0 : one_in(3) ? orders - 1 : below(orders);
    s.outcome = s.phase == REFERENCE_ENDED && one_in(2) ? some_stop() : 0;
    return s;
}

static size_t near(size_t n)
{
    static const size_t steps[] = {1, 4096, 256, 0x100000000u};
    return one_in(6) ? (size_t)next_random() : one_in(2) ? n + steps[below(4)] : n - steps[below(4)];
}

/* One number of a state, changed. */
static void change(ReferenceState *s)
{
    switch (below(7)) {
    case 0:
        s->length = near(s->length);
        break;
    case 1:
        s->update = near(s->update);
        break;
    case 2:
        s->area = near(s->area);
        break;
    case 3:
        s->image_length = near(s->image_length);
        break;
    case 4:
        s->phase = one_in(4) ? (uint32_t)next_random() : (uint32_t)below(10);
        break;
    case 5:
        s->index = one_in(2) ? reference_orders_in_phase(s) : near(s->index);
        break;
    default:
        s->outcome = one_in(4) ? (uint32_t)next_random() : (uint32_t)below(16);
        break;
    }
}

typedef struct {
    uint32_t kind;
    uint8_t bytes[300];
    size_t length;
} Reply;

/* The true reply to an order, on a chip that is as it should be. */
static void make_true(Reply *r, ReferenceState s, const ReferenceOrder *o)
{
    uint8_t padded_page[TEALSETTLE_PAGE];
    int look = o->operation == TEALSETTLE_LOOK;
    r->kind = look ? TEALSETTLE_READ : TEALSETTLE_DONE;
    r->length = look ? o->length : 0;
    memcpy(r->bytes, reference_expected_bytes(&s, image, padded_page), r->length);
}

/* A reply, true or not, and now and then a little changed. */
static void make_reply(Reply *r, ReferenceState s, size_t lent)
{
    ReferenceOrder o;
    r->kind = (uint32_t)below(3);
    r->length = one_in(2) ? 0 : below(sizeof r->bytes);
    memset(r->bytes, 0xFF, sizeof r->bytes);
    if (reference_order(&s, image, lent, &o) == 0 && !one_in(8))
        make_true(r, s, &o);
    if (one_in(20))
        r->length = r->length > 0 && one_in(2) ? r->length - 1 : r->length + 1;
    if (one_in(20))
        r->kind = one_in(2) ? 1 - r->kind : (uint32_t)next_random();
    for (size_t i = one_in(3) ? 1 + below(3) : 0; i > 0; i--)
        r->bytes[r->length > 0 ? below(r->length) : 0] ^= (uint8_t)(1u << below(8));
}

/* The calls on numbers. */

static int try_reply(uint32_t kind, ReferenceState s, size_t lent)
{
    Reply r;
    make_reply(&r, s, lent);
    ExpectedReply e = expected_reply(kind, s, image, lent, r.kind, r.bytes, r.length);
    answers[e.number]++;
    return reply_differs(tealsettle_reply(kind, TEALSETTLE_STATE(s), image, lent, r.kind, r.bytes, r.length), e);
}

static int try_numbers(uint32_t kind, ReferenceState s, size_t lent)
{
    TealsettleOrder order = tealsettle_order(kind, TEALSETTLE_STATE(s), image, lent);
    return order_differs(kind, s, image, lent, &order) || try_reply(kind, s, lent) ||
           finished_differs(kind, s, tealsettle_finished(kind, TEALSETTLE_STATE(s))) ||
           progress_differs(kind, s, tealsettle_progress(kind, TEALSETTLE_STATE(s)));
}

/* The same on the state itself. */

static int try_state_reply(uint32_t kind, ReferenceState s, size_t lent)
{
    Reply r;
    TealsettleState state = {TEALSETTLE_STATE(s)};
    make_reply(&r, s, lent);
    ExpectedReply done = expected_reply(kind, s, image, lent, TEALSETTLE_DONE, NULL, 0);
    ExpectedReply read = expected_reply(kind, s, image, lent, TEALSETTLE_READ, r.bytes, r.length);
    return reply_differs(tealsettle_run_done(kind, state, image, lent), done) ||
           reply_differs(tealsettle_run_read(kind, state, image, lent, r.bytes, r.length), read);
}

static int try_struct(uint32_t kind, ReferenceState s, size_t lent)
{
    TealsettleState state = {TEALSETTLE_STATE(s)};
    TealsettleOrder order = tealsettle_run_order(kind, state, image, lent);
    return order_differs(kind, s, image, lent, &order) || try_state_reply(kind, s, lent) ||
           finished_differs(kind, s, tealsettle_run_finished(kind, state)) ||
           progress_differs(kind, s, tealsettle_run_progress(kind, state));
}

static int try_state(void)
{
    uint32_t kind = some_kind();
    ReferenceState s = some_state();
    if (one_in(3))
        change(&s);
    size_t lent = s.image_length <= LARGEST ? s.image_length : below(5000);
    if (one_in(20))
        lent = below(5000);
    tried++;
    return total_differs(kind, s, tealsettle_total(kind, s.length, s.update, s.area, s.image_length)) ||
           (one_in(2) ? try_numbers(kind, s, lent) : try_struct(kind, s, lent));
}

static int try_start(void)
{
    uint32_t kind = some_kind();
    ReferenceState s = some_state();
    make_stream(below(8), one_in(3));
    if (one_in(5))
        damage_stream();
    s.image_length = stream_length;
    if (one_in(4))
        change(&s);
    if (s.image_length > sizeof stream)
        s.image_length = below(sizeof stream);
    TealsettleStart r = tealsettle_start(kind, s.length, s.update, s.area, stream, s.image_length);
    tried++;
    if (start_differs(kind, s, stream, r))
        return 1;
    answers[r.number]++;
    return 0;
}

int main(void)
{
    fill_random(image, sizeof image);
    if (try_often(STATES, try_state) || try_often(STARTS, try_start))
        return 1;
    printf("host test: %ld states and starts tried, none differs (good %ld", tried, answers[0]);
    print_refusals(answers);
    printf(")\n");
    return 0;
}
