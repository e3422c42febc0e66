/* A run: the state is checked at each call, and changed in place; a program's bytes are pointed at, and a look is
 * compared with memcmp. */
#include "reference.h"

#include <string.h>

enum { PAGE = TEALSETTLE_PAGE, SEGMENT = TEALSETTLE_SEGMENT, SWITCH = 4092 };

static const uint8_t ON[4] = {0xAA, 0x99, 0x55, 0x66};

#define FF16 0xFF, 0xFF, 0xFF, 0xFF, 0xFF, 0xFF, 0xFF, 0xFF, 0xFF, 0xFF, 0xFF, 0xFF, 0xFF, 0xFF, 0xFF, 0xFF
#define FF64 FF16, FF16, FF16, FF16
static const uint8_t ERASED[PAGE] = {FF64, FF64, FF64, FF64};

static inline size_t min(size_t a, size_t b)
{
    return a < b ? a : b;
}

static inline size_t pages(size_t length)
{
    return (length + PAGE - 1) / PAGE;
}

size_t reference_orders_in_phase(const ReferenceState *s)
{
    switch (s->phase) {
    case 1:
        return SEGMENT / PAGE;
    case 2:
        return s->area / SEGMENT;
    case 3:
        return pages(s->image_length);
    case 4:
        return s->area / PAGE;
    default:
        return s->phase < REFERENCE_ENDED;
    }
}

size_t reference_orders_in_all(const ReferenceState *s)
{
    return s->area / SEGMENT + s->area / PAGE + pages(s->image_length) + 19;
}

void reference_advance(ReferenceState *s)
{
    if (++s->index == reference_orders_in_phase(s)) {
        s->phase++;
        s->index = 0;
    }
}

static inline int is_stop(uint32_t number)
{
    return number >= TEALSETTLE_STOPPED_SWITCH_NOT_ERASED && number <= TEALSETTLE_STOPPED_SWITCH_NOT_ON;
}

static inline int state_fits(const ReferenceState *s, size_t image_length)
{
    if (reference_layout(s->length, s->update, s->area) != 0)
        return 0;
    if (s->image_length == 0 || s->image_length > s->area || s->image_length != image_length)
        return 0;
    if (s->phase < REFERENCE_ENDED)
        return s->index < reference_orders_in_phase(s) && s->outcome == 0;
    return s->phase == REFERENCE_ENDED && s->index == 0 && (s->outcome == 0 || is_stop(s->outcome));
}

/* The order of a state that fits and has not ended. */
static inline ReferenceOrder order_of(const ReferenceState *s, const uint8_t *image)
{
    size_t from = PAGE * s->index;
    switch (s->phase) {
    case 0:
        return (ReferenceOrder){TEALSETTLE_ERASE, 0, SEGMENT, NULL};
    case 1:
        return (ReferenceOrder){TEALSETTLE_LOOK, from, PAGE, NULL};
    case 2:
        return (ReferenceOrder){TEALSETTLE_ERASE, s->update + SEGMENT * s->index, SEGMENT, NULL};
    case 3:
        return (ReferenceOrder){TEALSETTLE_PROGRAM, s->update + from, min(s->image_length - from, PAGE), image + from};
    case 4:
        return (ReferenceOrder){TEALSETTLE_LOOK, s->update + from, PAGE, NULL};
    case 5:
        return (ReferenceOrder){TEALSETTLE_PROGRAM, SWITCH, sizeof ON, ON};
    default:
        return (ReferenceOrder){TEALSETTLE_LOOK, SWITCH, sizeof ON, NULL};
    }
}

const uint8_t *reference_expected_bytes(const ReferenceState *s, const uint8_t *image, uint8_t padded_page[PAGE])
{
    size_t from = PAGE * s->index;
    if (s->phase == 6)
        return ON;
    if (s->phase == 1 || from >= s->image_length)
        return ERASED;
    if (s->image_length - from >= PAGE)
        return image + from;
    memset(padded_page, 0xFF, PAGE);
    memcpy(padded_page, image + from, s->image_length - from);
    return padded_page;
}

static inline size_t first_difference(const uint8_t *a, const uint8_t *b)
{
    size_t i = 0;
    while (a[i] == b[i])
        i++;
    return i;
}

static inline uint32_t stop_of_phase(uint32_t phase)
{
    switch (phase) {
    case 1:
        return TEALSETTLE_STOPPED_SWITCH_NOT_ERASED;
    case 4:
        return TEALSETTLE_STOPPED_UPDATE_DIFFERS;
    default:
        return TEALSETTLE_STOPPED_SWITCH_NOT_ON;
    }
}

/* A look that has not found what it had to ends the run. */
static inline uint32_t reply_look(ReferenceState *s, const uint8_t *image, const ReferenceOrder *order, const uint8_t *bytes,
                                  size_t *place)
{
    uint8_t padded_page[PAGE];
    const uint8_t *expected = reference_expected_bytes(s, image, padded_page);
    if (memcmp(bytes, expected, order->length) == 0) {
        reference_advance(s);
        return 0;
    }
    *place = order->address + first_difference(bytes, expected);
    s->outcome = stop_of_phase(s->phase);
    s->phase = REFERENCE_ENDED;
    s->index = 0;
    return s->outcome;
}

uint32_t reference_reply(ReferenceState *state, const uint8_t *image, size_t image_length, uint32_t reply_kind,
                         const uint8_t *bytes, size_t bytes_length, size_t *place)
{
    *place = 0;
    if (!state_fits(state, image_length))
        return TEALSETTLE_REFUSED_BAD_STATE;
    if (state->phase == REFERENCE_ENDED)
        return TEALSETTLE_REFUSED_RUN_ENDED;
    ReferenceOrder order = order_of(state, image);
    int look = order.operation == TEALSETTLE_LOOK;
    if (reply_kind != (look ? TEALSETTLE_READ : TEALSETTLE_DONE) || bytes_length != (look ? order.length : 0))
        return TEALSETTLE_REFUSED_BAD_REPLY;
    if (look)
        return reply_look(state, image, &order, bytes, place);
    reference_advance(state);
    return 0;
}

uint32_t reference_order(const ReferenceState *state, const uint8_t *image, size_t image_length, ReferenceOrder *order)
{
    if (!state_fits(state, image_length))
        return TEALSETTLE_REFUSED_BAD_STATE;
    if (state->phase == REFERENCE_ENDED)
        return TEALSETTLE_REFUSED_RUN_ENDED;
    *order = order_of(state, image);
    return 0;
}

uint32_t reference_finished(const ReferenceState *state, int *ended, uint32_t *outcome)
{
    *ended = 0;
    *outcome = 0;
    if (!state_fits(state, state->image_length))
        return TEALSETTLE_REFUSED_BAD_STATE;
    *ended = state->phase == REFERENCE_ENDED;
    *outcome = state->outcome; /* 0 before the end */
    return 0;
}

uint32_t reference_progress(const ReferenceState *state, size_t *order, size_t *orders)
{
    ReferenceState before = {state->length, state->update, state->area, state->image_length, 0, 0, 0};
    *order = *orders = 0;
    if (!state_fits(state, state->image_length))
        return TEALSETTLE_REFUSED_BAD_STATE;
    if (state->phase == REFERENCE_ENDED)
        return TEALSETTLE_REFUSED_RUN_ENDED;
    for (; before.phase < state->phase; before.phase++)
        *order += reference_orders_in_phase(&before);
    *order += state->index + 1;
    *orders = reference_orders_in_all(state);
    return 0;
}

uint32_t reference_start(ReferenceState *state, size_t length, size_t update, size_t area, const uint8_t *image,
                         size_t image_length, size_t *place)
{
    uint32_t number = reference_layout(length, update, area);
    *place = 0;
    if (number != 0)
        return number;
    ReferenceBoot alone = reference_image_check(image, image_length, area);
    *place = alone.place;
    if (alone.number == 0)
        *state = (ReferenceState){length, update, area, image_length, 0, 0, 0};
    return alone.number;
}

uint32_t reference_total(size_t length, size_t update, size_t area, size_t image_length, size_t *orders)
{
    ReferenceState state = {length, update, area, image_length, 0, 0, 0};
    uint32_t number = reference_layout(length, update, area);
    if (number != 0)
        return number;
    if (image_length == 0 || image_length > area)
        return TEALSETTLE_REFUSED_BAD_IMAGE_LENGTH;
    *orders = reference_orders_in_all(&state);
    return 0;
}
