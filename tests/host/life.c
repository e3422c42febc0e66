/* Whole lives of chips: starts, orders, replies and power cuts, accepted and refused, on a chip that
 * obeys, lies, or is cut inside an order. Each answer is compared with the reference's, and after each event what the
 * chip loads with what has to load. That is told without the reference: by the events, and by what was put into
 * each image when it was made. Prints how many events were tried. */
#include "compare.h"
#include "make.h"

enum { LIVES = 2500, EVENTS = 600, LONGEST = 32768, IMAGES = 5, LISTED = 24 };

enum { ENDED = 7 }; /* the phase after the last order */

typedef struct {
    uint8_t bytes[LONGEST];
    size_t length;
    Made loads;
} Image;

/* What an order leaves in its span. */
enum { OBEYED, KEPT_OLD, MIXED, NEARLY, RUBBISH, WAYS };

/* Where a run is cut: before an order, inside it (or after it, before its reply), or after its reply. */
enum { BEFORE, INSIDE, AFTER };

/* What befalls a run of a random life at one of its orders. */
enum { NOTHING, LIE, CUT_BEFORE, CUT_INSIDE, NEW_START, TROUBLES };

static Image images[IMAGES]; /* the first is the golden one */

static uint8_t chip[LONGEST];
static size_t length, update;
static const Image *ordered;  /* the image of the last run that ordered the switch on, at first none */
static int is_open, carried;  /* an open run; whether the order of its state has been carried out */
static TealsettleState state; /* handed back last */
static TealsettleOrder order; /* carried out last */
static const Image *running;  /* the run's image */
static int looks, switched;   /* of the last run: looks of phase 1 that read FF; whether it ordered the switch on */
static size_t orders;         /* of the last run: how many were carried out */
static int changed;           /* whether what loads may have changed since it was last compared */
static long lives, starts, refused, answers[NUMBERS], cut, updated, on_events;

static int fails(const char *what)
{
    printf("event %ld: %s\n", tried, what);
    return 1;
}

/* What has to load. */

static int write_differs(const Image *image, size_t at, size_t i)
{
    TealsettleWrite w = tealsettle_write(TEALSETTLE_SPI, chip, length, i);
    const MadeWrite *m = &image->loads.list[i];
    if (i == image->loads.writes)
        return differs("write: found", w.found, 0);
    return differs("write: found", w.found, 1) || differs("write: register", w.register_number, m->register_number) ||
           differs("write: word", w.word, m->word) || differs("write: place", w.word_place, at + m->place);
}

/* How many writes are compared: of many, some, and where nothing has changed now and then one. */
static size_t listed_writes(size_t writes)
{
    return changed ? min(writes, LISTED) : (size_t)one_in(4);
}

/* Does the chip load anything but this image, whole, from this place? */
static int loads_other(const Image *image, size_t at, int jumped)
{
    TealsettleBoot b = tealsettle_boot(TEALSETTLE_SPI, chip, length);
    size_t writes = image->loads.writes, listed = listed_writes(writes);
    if (differs("boot: number", b.number, 0) || differs("boot: stuck", b.stuck, 0) || differs("boot: jumped", b.jumped, (size_t)jumped) ||
        differs("boot: sync", b.sync, at + image->loads.sync) || differs("boot: end", b.end, at + image->loads.end) ||
        differs("boot: writes", b.writes, writes))
        return 1;
    for (size_t i = 0; i < listed; i++)
        if (write_differs(image, at, listed == writes ? i : below(writes)))
            return 1;
    return changed && write_differs(image, at, writes);
}

/* After each event. */
static int claim_fails(void)
{
    int on = memcmp(chip + 4092, ON, 4) == 0;
    if (on && !ordered)
        return fails("the switch is ON, and no image is ordered");
    if (on && looks == 16 && !switched)
        return fails("the switch is ON, and the run that found it erased has not ordered it");
    if (on ? loads_other(ordered, update, 1) : loads_other(images, 8192, 0))
        return fails(on ? "what loads is not the ordered image" : "what loads is not the golden image");
    tried++, on_events += on;
    changed = 0;
    return 0;
}

/* Events. */

static int start(const Image *image, size_t area)
{
    ReferenceState given = {length, update, area, image->length, 0, 0, 0};
    TealsettleStart r = tealsettle_start(TEALSETTLE_SPI, length, update, area, image->bytes, image->length);
    if (start_differs(TEALSETTLE_SPI, given, image->bytes, r))
        return 1;
    if (r.number == 0)
        starts++, is_open = 1, carried = 0, state = r.state, running = image, looks = 0, switched = 0, orders = 0;
    else
        refused++;
    return claim_fails();
}

/* A start with something wrong: a kind, a layout, an image. It changes nothing. */
static int start_wrong(void)
{
    ReferenceState given = {length, update, 4096, images[1].length, 0, 0, 0};
    const uint8_t *image = images[1].bytes;
    uint32_t kind = one_in(4) ? 1 + (uint32_t)below(3) : TEALSETTLE_SPI;
    switch (below(4)) {
    case 0:
        given.length = one_in(2) ? 12288 : length + 1;
        break;
    case 1:
        given.update = one_in(2) ? 8192 : length;
        break;
    case 2:
        given.area = one_in(2) ? 0 : length;
        break;
    default:
        make_stream(below(6), 1);
        damage_stream();
        image = stream, given.image_length = stream_length;
        break;
    }
    TealsettleStart r = tealsettle_start(kind, given.length, given.update, given.area, image, given.image_length);
    if (start_differs(kind, given, image, r))
        return 1;
    if (r.number != 0)
        refused++;
    return claim_fails();
}

/* What stands in a byte of the order's span afterwards: in segment 0 each bit old or as ordered. */
static uint8_t left_byte(uint8_t old, size_t i, int way)
{
    uint8_t as_ordered = order.operation == TEALSETTLE_ERASE ? 0xFF : old & order.bytes[i], some = (uint8_t)next_random();
    switch (way) {
    case OBEYED:
        return as_ordered;
    case KEPT_OLD:
        return old;
    case NEARLY:
        some = one_in((unsigned)order.length) ? (uint8_t)(1u << below(8)) : 0;
        break;
    case RUBBISH:
        if (order.address >= 4096)
            return some;
        break;
    default:
        break;
    }
    return (uint8_t)((old & some) | (as_ordered & ~some));
}

static int is_erased(size_t address, size_t count)
{
    size_t i = 0;
    while (i < count && chip[address + i] == 0xFF)
        i++;
    return i == count;
}

static int carry_out(int way)
{
    order = tealsettle_order(TEALSETTLE_SPI, TEALSETTLE_STATE(state), running->bytes, running->length);
    if (order_differs(TEALSETTLE_SPI, (ReferenceState){TEALSETTLE_STATE(state)}, running->bytes, running->length, &order))
        return 1;
    for (size_t i = 0; i < order.length && order.operation != TEALSETTLE_LOOK; i++)
        chip[order.address + i] = left_byte(chip[order.address + i], i, way);
    if (state.phase == 1)
        looks += is_erased(order.address, order.length);
    if (state.phase == 5)
        switched = 1, ordered = running;
    changed = order.operation != TEALSETTLE_LOOK;
    carried = 1, orders++;
    return claim_fails();
}

/* The true reply to the order of the state, once it has been carried out. */
static int reply_true(void)
{
    int look = order.operation == TEALSETTLE_LOOK;
    uint32_t reply_kind = look ? TEALSETTLE_READ : TEALSETTLE_DONE;
    const uint8_t *image = running->bytes, *bytes = chip + order.address;
    size_t lent = look ? order.length : 0;
    ReferenceState given = {TEALSETTLE_STATE(state)};
    ExpectedReply e = expected_reply(TEALSETTLE_SPI, given, image, running->length, reply_kind, bytes, lent);
    TealsettleReply r = tealsettle_reply(TEALSETTLE_SPI, TEALSETTLE_STATE(state), image, running->length, reply_kind, bytes, lent);
    if (reply_differs(r, e) || finished_differs(TEALSETTLE_SPI, e.state, tealsettle_finished(TEALSETTLE_SPI, TEALSETTLE_STATE(r.state))))
        return 1;
    state = r.state, carried = 0;
    answers[r.number]++;
    return claim_fails();
}

static int is_refusal_of_reply(uint32_t number)
{
    return number == TEALSETTLE_REFUSED_BAD_STATE || number == TEALSETTLE_REFUSED_RUN_ENDED ||
           number == TEALSETTLE_REFUSED_BAD_REPLY;
}

/* A reply that is refused: any image, any bytes, and maybe before its order. It changes nothing. */
static int reply_wrong(void)
{
    const Image *image = one_in(2) ? running : &images[below(IMAGES)];
    uint32_t kind = one_in(8) ? 1 + (uint32_t)below(3) : TEALSETTLE_SPI, reply_kind = (uint32_t)below(3);
    size_t at = below(length - 300), lent = one_in(2) ? 256 : below(300);
    ReferenceState given = {TEALSETTLE_STATE(state)};
    ExpectedReply e = expected_reply(kind, given, image->bytes, image->length, reply_kind, chip + at, lent);
    if (!is_refusal_of_reply(e.number))
        return 0; /* not refused, and not true: no event of a life */
    TealsettleReply r = tealsettle_reply(kind, TEALSETTLE_STATE(state), image->bytes, image->length, reply_kind, chip + at, lent);
    refused++;
    return reply_differs(r, e) || claim_fails();
}

static int cut_power(void)
{
    is_open = 0;
    cut++;
    return claim_fails();
}

/* So many orders, obeyed, with true replies; fewer if the run ends. */
static int obey_orders(size_t count)
{
    for (size_t i = 0; i < count && state.phase < ENDED; i++)
        if ((!carried && carry_out(OBEYED)) || reply_true())
            return 1;
    return 0;
}

/* One more run, uncut on a chip that obeys, makes its own image load. */
static int update_with(const Image *image, size_t area)
{
    if (start(image, area))
        return 1;
    TealsettleTotal t = tealsettle_total(TEALSETTLE_SPI, length, update, area, image->length);
    if (obey_orders(t.orders - 1))
        return 1;
    if (state.phase != 6)
        return fails("the last order is not that of phase 6");
    if (obey_orders(1))
        return 1;
    if (state.phase != ENDED || state.outcome != 0)
        return fails("an uncut run on a chip that obeys has not ended with outcome 0");
    changed = 1, updated++;
    return loads_other(image, update, 1);
}

static void make_image(Image *image, size_t most)
{
    image->length = some_image(image->bytes, most);
    image->loads.sync = made.sync, image->loads.end = made.end, image->loads.writes = made.writes;
    memcpy(image->loads.list, made.list, made.writes * sizeof *made.list);
}

/* The golden image, and those for updates, one of which is now and then the golden one. */
static void make_images(void)
{
    make_image(&images[0], update - 8192);
    for (int i = 1; i < IMAGES; i++)
        make_image(&images[i], length - update);
    if (one_in(4) && images[0].length <= length - update)
        images[1] = images[0];
}

/* A chip as it is built, with no run open. */
static int build(size_t chip_length, size_t at)
{
    length = chip_length, update = at;
    make_images();
    memset(chip, 0, sizeof chip);
    ordered = NULL, is_open = carried = looks = switched = 0, changed = 1;
    lives++;
    if (tealsettle_build(TEALSETTLE_SPI, length, update, 4096, images[0].bytes, images[0].length, chip, sizeof chip).number != 0)
        return fails("the chip is not built");
    return claim_fails();
}

/* Every cut of one run: at each order, before it, inside it in each way, and after it. */
static int try_cut(size_t k, int where, int way, int on)
{
    if (build(16384, 12288) || (on && update_with(&images[1], 4096)) || start(&images[2], 4096) || obey_orders(k))
        return 1;
    if (state.phase < ENDED && where != BEFORE && (carry_out(way) || (where == AFTER && reply_true())))
        return 1;
    return cut_power() || update_with(&images[3], 4096);
}

static int try_cuts_in(size_t k, int where)
{
    for (int way = 0; way < (where == BEFORE ? 1 : WAYS); way++)
        if (try_cut(k, where, way, 0) || try_cut(k, where, way, 1))
            return 1;
    return 0;
}

static int try_cuts(void)
{
    for (size_t k = 0; k <= 52; k++)
        if (try_cuts_in(k, BEFORE) || try_cuts_in(k, INSIDE) || try_cuts_in(k, AFTER))
            return 1;
    return 0;
}

/* Random lives. */

static int trouble;       /* of the open run, */
static size_t trouble_at; /* after so many orders */
static unsigned lies;     /* one in so many other orders is not obeyed */

static int start_some(void)
{
    if (start(&images[below(IMAGES)], some_multiple(4096, length - update)))
        return 1;
    size_t all = reference_orders_in_all(&(ReferenceState){TEALSETTLE_STATE(state)});
    trouble = (int)below(TROUBLES);
    trouble_at = one_in(2) ? below(all) : one_in(2) ? 0 : all - 1 - below(2);
    return 0;
}

static int meet_trouble(void)
{
    int way = (int)below(WAYS);
    if (trouble == CUT_BEFORE)
        return cut_power();
    if (carry_out(way))
        return 1;
    return trouble == CUT_INSIDE ? cut_power() : trouble == NEW_START ? start_some() : 0;
}

static int some_event(void)
{
    if (one_in(20))
        return is_open && one_in(2) ? reply_wrong() : start_wrong();
    if (!is_open || state.phase == ENDED)
        return one_in(10) ? cut_power() : start_some();
    if (carried)
        return reply_true();
    if (trouble != NOTHING && orders == trouble_at)
        return meet_trouble();
    return carry_out(one_in(lies) ? (int)below(WAYS) : OBEYED);
}

static int try_life(void)
{
    size_t chip_length = some_multiple(16384, LONGEST);
    if (build(chip_length, some_multiple(12288, chip_length - 4096)))
        return 1;
    lies = one_in(4) ? 4 : 1000;
    trouble = NOTHING;
    for (int i = 0; i < EVENTS; i++) {
        if (some_event())
            return 1;
        if (one_in(EVENTS) && update_with(&images[1 + below(IMAGES - 1)], length - update))
            return 1;
    }
    return update_with(&images[1 + below(IMAGES - 1)], length - update);
}

static void print_stop(int number)
{
    printf(", %s%d %ld", number == TEALSETTLE_STOPPED_SWITCH_NOT_ERASED ? "stops " : "", number, answers[number]);
}

int main(void)
{
    if (try_cuts() || try_often(LIVES, try_life))
        return 1;
    printf("host test: %ld events in %ld lives tried, what loads is right after each (an update after %ld; starts %ld, refused calls %ld",
           tried, lives, on_events, starts, refused);
    print_stop(TEALSETTLE_STOPPED_SWITCH_NOT_ERASED);
    print_stop(TEALSETTLE_STOPPED_UPDATE_DIFFERS);
    print_stop(TEALSETTLE_STOPPED_SWITCH_NOT_ON);
    printf(", cuts %ld, uncut runs %ld)\n", cut, updated);
    return 0;
}
