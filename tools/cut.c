/* tealsettle cut: the bench, a run whose power is cut. */
#include "tool.h"

static int say_cut(const File *chip, const TealsettleState *state, size_t k, size_t total)
{
    if (state->phase == 7) /* ended */
        printf("the run of %zu orders ends before the cut\n", total);
    else
        printf("cut in order %zu of %zu: %s\n", k + 1, total, phase_words(state->phase));
    return say_boot(stdout, chip);
}

static int cut_flash(const Arguments *arguments, const Flash *flash, const File *image, const File *damage)
{
    File chip = read_flash(flash);
    size_t place = arguments->update.value, k = arguments->orders.value;
    int status = arguments->update.given ? DONE : read_update_place(&chip, &place);
    if (status != DONE)
        return status;
    size_t area = read_area(arguments, chip.length, place);
    TealsettleBench answer = tealsettle_cut_run(TEALSETTLE_SPI, chip.bytes, chip.length, place, area, image->bytes,
                                                image->length, k, damage->bytes, damage->length);
    if (answer.number == TEALSETTLE_REFUSED_BAD_DAMAGE)
        return refused(damage->name, answer.number, answer.place);
    if (answer.number != 0)
        return refused_run(chip.name, image, answer.number, answer.place);
    size_t total = tealsettle_total(TEALSETTLE_SPI, chip.length, place, area, image->length).orders;
    check_named(flash);
    replace_file(chip.name, chip.bytes, chip.length);
    return say_cut(&chip, &answer.state, k, total);
}

static int cut(const Arguments *arguments)
{
    File image;
    int status = read_image(arguments->files[1], &image);
    if (status != DONE)
        return status;
    File damage = read_file(arguments->files[2], LONGEST_CHIP);
    Flash flash = open_flash(arguments->files[0]);
    return cut_flash(arguments, &flash, &image, &damage);
}

const Command cut_command = {
    .name = "cut",
    .usage = "[-U N] [-A N] -k N CHIP IMAGE DAMAGE",
    .purpose = "The bench: a run on a chip's file, whose power is cut after so many orders",
    .help = "CHIP is a dump of the chip, and is replaced by what the cut leaves: use a copy. IMAGE is MCS text, a BIT file\n"
            "or the image itself, told by its bytes. If the order that is cut is an erase or a program, its span then holds\n"
            "the first bytes of DAMAGE, a plain file; in segment 0 each of their bits must be the old one or the ordered\n"
            "one. IMAGE or DAMAGE can be -, standard input.\n"
            "\n"
            "  -k N  how many orders are obeyed in full; with all of them or more the run ends\n"
            "  -U N  where the update area begins; without it, the place that segment 1 of the chip names\n"
            "  -A N  how long the update area is; without it, up to the chip's end\n"
            "\n"
            "Numbers are decimal, or hexadecimal after 0x.\n"
            "\n"
            "Exit status: 0 done; 1 a refusal, which leaves the chip as it was, or the chip is stuck; 2 wrong use, or\n"
            "trouble with a file.\n",
    .options = "UAk",
    .needed = "k",
    .files = 3,
    .run = cut,
};
