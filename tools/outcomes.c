/* tealsettle outcomes: how many switch words a power cut can leave. */
#include "tool.h"

#include <inttypes.h>

static const uint32_t on_word = 0xAA995566u;

#define GOLDEN "the golden image, the one from the factory"

/* A number with a comma before each three digits, as a person reads it. */
static void print_number(uint64_t number)
{
    if (number >= 1000) {
        print_number(number / 1000);
        putchar(',');
    }
    printf(number >= 1000 ? "%03" PRIu64 : "%" PRIu64, number % 1000);
}

/* Where one word alone can be left no bit can change, and it is the old one. */
static void say_one(uint32_t old, bool on)
{
    printf("the switch word stays %08" PRIX32 ": %s.\n", old,
           on ? "ON, which chooses the update" : "OFF, which chooses " GOLDEN);
}

static void say_others(uint64_t others)
{
    printf("the other ");
    if (others == 1) {
        printf("is OFF and chooses " GOLDEN ".\n");
        return;
    }
    print_number(others);
    printf(" are OFF and choose " GOLDEN ".\n");
}

static void say_many(TealsettleCounts counts)
{
    printf("any of ");
    print_number(counts.words);
    printf(" words can be left there. ");
    if (counts.on == 0) {
        printf("Not one of them is ON: each is OFF and chooses " GOLDEN ".\n");
        return;
    }
    printf("One of them, %08" PRIX32 ", is ON and chooses the update; ", on_word);
    say_others(counts.words - 1);
}

static int show_outcomes(const Arguments *arguments)
{
    uint32_t old = (uint32_t)arguments->words[0].value, ordered = (uint32_t)arguments->words[1].value;
    bool program = arguments->words[1].given;
    TealsettleCounts counts = program ? tealsettle_after_program(old, ordered) : tealsettle_after_erase(old);
    printf("outcomes: words %" PRIu64 ", on %" PRIu64 "\n", counts.words, counts.on);
    if (program)
        printf("If the power fails while %08" PRIX32 " is written over the switch word %08" PRIX32 ", ", ordered, old);
    else
        printf("If the power fails while the switch word %08" PRIX32 " is erased, ", old);
    if (counts.words == 1)
        say_one(old, counts.on);
    else
        say_many(counts);
    return DONE;
}

const Command outcomes_command = {
    .name = "outcomes",
    .usage = "OLD [ORDERED]",
    .purpose = "How many switch words a power cut can leave, and how many of those are ON",
    .help = "OLD is the switch word of the chip, and ORDERED the one that is programmed over it; without ORDERED the word is\n"
            "erased. A word is eight hexadecimal digits, capital or small, with 0x before them or not, as `tealsettle switch`\n"
            "prints it: AA995566 is ON, FFFFFFFF is erased. The first line has the counts, the second says what they mean.\n"
            "\n"
            "Taken for granted of the chip: each bit by itself ends as it was or as ordered. A program only clears bits and an\n"
            "erase only sets them, so a 1 that is ordered over a 0 changes nothing. Counted is every word that can then be\n"
            "left, each one time, the old and the finished one among them.\n"
            "\n"
            "Exit status: 0 the counts are told; 2 wrong use, or trouble with standard output.\n",
    .options = "",
    .needed = "",
    .words = 2,
    .optional = 1,
    .run = show_outcomes,
};
