/* tealsettle_cut_run beside the reference: runs on chips, built and not, cut at any order with any damage. The answer
 * and every byte of the chip are compared. Prints how many were tried. */
#include "compare.h"
#include "make.h"

enum { RUNS = 40000, LONGEST = 32768 };

static uint8_t chip[LONGEST + 8], theirs[LONGEST + 8], image[LONGEST + 8], damage[8192];
static long answers[NUMBERS];

static void make_switch(void)
{
    for (size_t i = 0; i < 4; i++)
        chip[4092 + i] = one_in(3) ? (uint8_t)next_random() : ON[i];
}

/* A chip's bytes: erased, one byte all over, or random; a switch word; maybe an image where one can be. */
static void make_chip(size_t length)
{
    int all = one_in(2) ? 0xFF : (int)below(256), random = one_in(4);
    for (size_t i = 0; i < length; i++)
        chip[i] = random ? (uint8_t)next_random() : (uint8_t)all;
    if (length >= 4096)
        make_switch();
}

/* Sets bits so that the first damage bytes only clear those that are 0 in `least`. */
static void keep_bits(const uint8_t *least, size_t length)
{
    for (size_t i = 0; i < length; i++)
        damage[i] |= least[i];
}

/* Damage for the order after k: in segment 0 bits that may stand there, now and then one that may not. */
static size_t make_damage(size_t all, size_t k)
{
    size_t span = k == 0 ? 4096 : k + 2 == all ? 4 : 256;
    for (size_t i = 0; i < sizeof damage; i++)
        damage[i] = (uint8_t)next_random();
    if (k == 0)
        keep_bits(chip, 4096);
    if (k + 2 == all)
        keep_bits(ON, 4);
    if (one_in(6))
        damage[below(span)] &= (uint8_t)next_random();
    return one_in(4) ? span - one_in(2) : one_in(8) ? below(4200) : sizeof damage;
}

static size_t some_cut(size_t all)
{
    switch (below(6)) {
    case 0:
        return 0;
    case 1:
        return all - 2;
    case 2:
        return one_in(3) ? SIZE_MAX : all - 1 + below(4);
    default:
        return below(all);
    }
}

/* A layout and an image, now and then wrong, as the numbers of a first state. */
static ReferenceState some_run(void)
{
    size_t length = one_in(20) ? below(LONGEST) : some_multiple(16384, LONGEST);
    size_t update = one_in(20) ? below(2 * LONGEST) : some_multiple(12288, length < 16384 ? 12288 : length - 4096);
    size_t area = one_in(20) ? below(2 * LONGEST) : some_multiple(4096, length > update ? length - update : 4096);
    size_t image_length = some_image(image, area < 4096 ? 4096 : min(area, LONGEST));
    if (one_in(20))
        image_length = one_in(2) && area < LONGEST ? area + 1 : below(image_length + 1);
    if (one_in(20))
        image[below(image_length + 1)] ^= (uint8_t)(1u << below(8));
    return (ReferenceState){length, update, area, image_length, 0, 0, 0};
}

static int try_run(void)
{
    uint32_t kind = one_in(50) ? 1 + (uint32_t)below(3) : TEALSETTLE_SPI, number = TEALSETTLE_REFUSED_BAD_CHIP_LENGTH;
    ReferenceState s = some_run(), before_cut = {0};
    size_t all = reference_orders_in_all(&s), k = some_cut(all), place = 0;
    make_chip(s.length);
    size_t damage_length = make_damage(all, k);
    memcpy(theirs, chip, sizeof chip);
    if (kind == TEALSETTLE_SPI)
        number = reference_cut_run(theirs, s.length, s.update, s.area, image, s.image_length, k, damage, damage_length,
                                   &before_cut, &place);
    TealsettleBench r = tealsettle_cut_run(kind, chip, s.length, s.update, s.area, image, s.image_length, k, damage,
                                           damage_length);
    tried++, answers[number]++;
    return differs("bench: number", r.number, number) || differs("bench: place", r.place, place) ||
           state_differs("bench: state", r.state, before_cut) ||
           bytes_differ("bench: the chip's bytes", chip, theirs, sizeof chip);
}

int main(void)
{
    if (try_often(RUNS, try_run))
        return 1;
    printf("host test: %ld cut runs tried, none differs (good %ld", tried, answers[0]);
    print_refusals(answers);
    printf(")\n");
    return 0;
}
