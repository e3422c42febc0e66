/* A run on the bytes of a chip that obeys, cut in one of its orders. */
#include "reference.h"

#include <string.h>

static uint8_t obeyed_byte(const ReferenceOrder *order, uint8_t old, size_t i)
{
    return order->operation == TEALSETTLE_ERASE ? 0xFF : old & order->bytes[i];
}

static void obey(const ReferenceOrder *order, uint8_t *span)
{
    for (size_t i = 0; i < order->length && order->operation != TEALSETTLE_LOOK; i++)
        span[i] = obeyed_byte(order, span[i], i);
}

static ReferenceState state_after(ReferenceState state, size_t k)
{
    for (; k > 0 && state.phase < REFERENCE_ENDED; k--)
        reference_advance(&state);
    return state;
}

static void obey_orders(ReferenceState state, size_t k, const uint8_t *image, uint8_t *chip)
{
    ReferenceOrder order;
    for (; k > 0 && reference_order(&state, image, state.image_length, &order) == 0; k--) {
        obey(&order, chip + order.address);
        reference_advance(&state);
    }
}

/* In segment 0 each bit is the old one or the ordered one. Its erase is the first order, and finds the chip as it was
 * given; its program finds it erased. So this can be asked before anything is written. */
static int damage_allowed(const ReferenceOrder *order, const uint8_t *chip, const uint8_t *damage, size_t damage_length)
{
    if (damage_length < order->length)
        return 0;
    for (size_t i = 0; i < order->length && order->address < TEALSETTLE_SEGMENT; i++) {
        uint8_t old = order->operation == TEALSETTLE_ERASE ? chip[order->address + i] : 0xFF;
        if (((damage[i] ^ old) & (damage[i] ^ obeyed_byte(order, old, i))) != 0)
            return 0;
    }
    return 1;
}

uint32_t reference_cut_run(uint8_t *chip, size_t chip_length, size_t update, size_t area, const uint8_t *image,
                           size_t image_length, size_t k, const uint8_t *damage, size_t damage_length,
                           ReferenceState *state, size_t *place)
{
    ReferenceState first;
    uint32_t number = reference_start(&first, chip_length, update, area, image, image_length, place);
    if (number != 0)
        return number;
    ReferenceState cut = state_after(first, k);
    ReferenceOrder order;
    int damaged = reference_order(&cut, image, image_length, &order) == 0 && order.operation != TEALSETTLE_LOOK;
    if (damaged && !damage_allowed(&order, chip, damage, damage_length))
        return TEALSETTLE_REFUSED_BAD_DAMAGE;
    obey_orders(first, k, image, chip);
    if (damaged)
        memcpy(chip + order.address, damage, order.length);
    *state = cut;
    return 0;
}
