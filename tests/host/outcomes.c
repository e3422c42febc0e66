/* tealsettle_after_program and tealsettle_after_erase: words with few bits that can change beside a list of every word that
 * can be left, which the bench also takes as damage, while it refuses a word that is not in the list; and random words beside
 * the reference. Prints how many were tried. */
#include "compare.h"
#include "make.h"

#include <stdlib.h>

enum { LISTS = 4000, BENCHES = 60, RANDOM = 1000000, FEW = 10, CHIP = 16384, UPDATE = 12288, AREA = 4096, SWITCH = 4092 };

static const uint32_t on_word = 0xAA995566u, erased_word = 0xFFFFFFFFu;
static const uint8_t image[12] = {0xAA, 0x99, 0x55, 0x66, 0x30, 0x00, 0x80, 0x01, 0x00, 0x00, 0x00, 0x0D};
static uint32_t list[1u << 16];
static size_t listed;
static uint8_t chip[CHIP], damage[TEALSETTLE_SEGMENT];
static long damages;

/* Lists every word that can be left: each bit old, or as an obeying chip would hold it. The bits below i are decided, in
 * `word`. */
static void list_words(uint32_t old, uint32_t obeyed, int i, uint32_t word)
{
    if (i == 32) {
        list[listed++] = word;
        return;
    }
    uint32_t bit = UINT32_C(1) << i;
    list_words(old, obeyed, i + 1, word | (old & bit));
    if ((old ^ obeyed) & bit)
        list_words(old, obeyed, i + 1, word | (obeyed & bit));
}

static int by_number(const void *one, const void *other)
{
    uint32_t a = *(const uint32_t *)one, b = *(const uint32_t *)other;
    return (a > b) - (a < b);
}

/* The counts are those of the list, in which no word is twice. */
static int list_differs(const char *what, uint32_t old, uint32_t obeyed, TealsettleCounts counts)
{
    size_t on = 0;
    listed = 0;
    list_words(old, obeyed, 0, 0);
    qsort(list, listed, sizeof *list, by_number);
    for (size_t i = 0; i < listed; i++) {
        on += list[i] == on_word;
        if (i > 0 && list[i] == list[i - 1])
            return printf("%08X is listed twice\n", (unsigned)list[i]), 1;
    }
    tried++;
    return differs(what, counts.words, listed) || differs("ON words", counts.on, on);
}

static int formula_differs(const char *what, ReferenceCounts expected, TealsettleCounts counts)
{
    tried++;
    return differs(what, counts.words, expected.words) || differs("ON words", counts.on, expected.on);
}

/* A word that differs from another in at most `bits` bits. */
static uint32_t near(uint32_t word, size_t bits)
{
    for (size_t i = below(bits + 1); i > 0; i--)
        word ^= UINT32_C(1) << below(32);
    return word;
}

static uint32_t some_word(void)
{
    switch (below(4)) {
    case 0:
        return near(on_word, 4);
    case 1:
        return near(erased_word, 4);
    case 2:
        return near(0, 4);
    default:
        return (uint32_t)next_random();
    }
}

static int try_lists(void)
{
    uint32_t old = some_word(), ordered = near(old, FEW) | (one_in(2) ? (uint32_t)next_random() : 0);
    uint32_t old_of_erase = near(erased_word, FEW);
    return list_differs("words after a program", old, old & ordered, tealsettle_after_program(old, ordered)) ||
           list_differs("words after an erase", old_of_erase, erased_word, tealsettle_after_erase(old_of_erase));
}

static int try_random(void)
{
    uint32_t old = some_word(), ordered = some_word();
    return formula_differs("words after a program", reference_after_program(old, ordered),
                           tealsettle_after_program(old, ordered)) ||
           formula_differs("words after an erase", reference_after_erase(old), tealsettle_after_erase(old));
}

static void put_switch(uint8_t *bytes, uint32_t word)
{
    for (int i = 0; i < 4; i++)
        bytes[i] = (uint8_t)(word >> (24 - 8 * i));
}

/* What the bench says to a run that is cut after k orders, where the cut leaves this switch word: 0, or 13. */
static uint32_t bench_says(uint32_t old, size_t k, uint32_t word)
{
    memset(chip, 0xFF, sizeof chip);
    put_switch(chip + SWITCH, old);
    memset(damage, 0xFF, sizeof damage);
    put_switch(damage + (k == 0 ? SWITCH : 0), word);
    damages++;
    return tealsettle_cut_run(TEALSETTLE_SPI, chip, sizeof chip, UPDATE, AREA, image, sizeof image, k, damage, sizeof damage)
        .number;
}

/* Of a run's order, the one after the first k: a word of the list that list_differs has left is damage that the bench takes,
 * and stands there then; with another bit that cannot change it is refused. One in `of` words is tried. */
static int bench_differs(uint32_t old, uint32_t obeyed, size_t k, unsigned of)
{
    uint32_t fixed = ~(old ^ obeyed);
    uint8_t left[4];
    for (size_t i = 0; i < listed; i++) {
        uint32_t other = UINT32_C(1) << below(32);
        if (!one_in(of))
            continue;
        put_switch(left, list[i]);
        if (differs("the bench, of a word listed", bench_says(old, k, list[i]), 0) ||
            bytes_differ("switch words", chip + SWITCH, left, 4))
            return 1;
        if ((fixed & other) &&
            differs("the bench, of another word", bench_says(old, k, list[i] ^ other), TEALSETTLE_REFUSED_BAD_DAMAGE))
            return 1;
    }
    return 0;
}

/* A run's first order is the erase of segment 0, over any old word. */
static int try_erase(void)
{
    uint32_t old = near(erased_word, FEW);
    return list_differs("words after an erase", old, erased_word, tealsettle_after_erase(old)) ||
           bench_differs(old, erased_word, 0, 1);
}

/* An erase over ON: with it the update of a printer begins that has one. */
static int try_off(void)
{
    return list_differs("words from ON to erased", on_word, erased_word, tealsettle_after_erase(on_word)) ||
           bench_differs(on_word, erased_word, 0, 8);
}

/* Its last but one is the program of ON, over an erased word. */
static int try_program(void)
{
    size_t orders = tealsettle_total(TEALSETTLE_SPI, CHIP, UPDATE, AREA, sizeof image).orders;
    return list_differs("words from erased to ON", erased_word, on_word, tealsettle_after_program(erased_word, on_word)) ||
           bench_differs(erased_word, on_word, orders - 2, 8);
}

int main(void)
{
    if (try_often(LISTS, try_lists) || try_often(RANDOM, try_random))
        return 1;
    long orders = tried;
    if (try_often(BENCHES, try_erase) || try_off() || try_program())
        return 1;
    printf("host test: %ld programs and erases of switch words, %ld damages of the bench: the counts are those of the list\n",
           orders, damages);
    return 0;
}
