/* tealsettle update: a whole run on a chip's file, order by order. */
#define _XOPEN_SOURCE 700
#include "tool.h"

#include <signal.h>

/* Before each order. What a phase wrote goes to the disk before the next phase begins: so the phases also come in their order
 * on a disk whose computer fails. */
static int begin_order(void *context, const TealsettleAhead *ahead)
{
    Flash *flash = context;
    bool next_phase = ahead->phase != flash->phase;
    flash->phase = ahead->phase;
    if (next_phase && flush_flash(flash) != 0)
        return -1;
    show_progress(ahead->phase, ahead->order, ahead->orders);
    return 0;
}

static int update_flash(Flash *flash, size_t length, size_t place, size_t area, const File *image)
{
    const TealsettleFlash driver = {TEALSETTLE_SPI, length, place, area, flash, flash_erase, flash_program, flash_read,
                                    begin_order};
    TealsettleUpdate result = tealsettle_update(&driver, image->bytes, image->length);
    end_progress();
    if (result.number == TEALSETTLE_ABANDONED)
        trouble(flash->name, joined(flash->why, ": the run has not come to its end; run it again"));
    if (result.number != 0 && result.order == 0)
        return refused_run(flash->name, image, result.number, result.place);
    check_named(flash);
    File chip = read_flash(flash);
    int status = say_boot(stdout, &chip);
    return result.number == 0 ? status : stopped(flash->name, result.number, result.place);
}

/* U is the one that the chip names, also if it is given: what is written elsewhere would not load. */
static int update_chip(const Arguments *arguments, Flash *flash, const File *image)
{
    size_t place;
    File chip = read_flash(flash);
    int status = read_update_place(&chip, &place);
    if (status != DONE)
        return status;
    if (arguments->update.given && arguments->update.value != place)
        return refused_in_words(chip.name, "segment 1 (from 4096 on) names another place than -U: what is written here would "
                                           "not load");
    return update_flash(flash, chip.length, place, read_area(arguments, chip.length, place), image);
}

static int update(const Arguments *arguments)
{
    File image;
    signal(SIGPIPE, SIG_IGN); /* a run goes on to its end also where nobody reads its progress any more */
    int status = read_image(arguments->files[1], &image);
    if (status != DONE)
        return status;
    Flash flash = open_flash(arguments->files[0]);
    return update_chip(arguments, &flash, &image);
}

const Command update_command = {
    .name = "update",
    .usage = "[-U N] [-A N] CHIP IMAGE",
    .purpose = "A whole run on a chip's file: writes the update image, reads every byte back, and switches it on",
    .help = "CHIP is a dump of the chip, which is written in place, order by order, and is locked meanwhile. IMAGE is MCS\n"
            "text, a BIT file or the image itself, told by its bytes; - is standard input.\n"
            "\n"
            "  -U N  where the update area begins: refused if it is not the place that segment 1 of the chip names\n"
            "  -A N  how long the update area is, all of which is erased; without it, up to the chip's end\n"
            "\n"
            "Numbers are decimal, or hexadecimal after 0x. The command can be killed at any moment: a chip that was built\n"
            "by `tealsettle build`, with a golden image that `tealsettle check` accepts, then loads that or the update that\n"
            "was switched on last, whole. Run it again.\n"
            "\n"
            "Exit status: 0 done, and the chip loads the image; 1 a refusal, which leaves the chip as it was, or a stop;\n"
            "2 wrong use, or trouble with a file.\n",
    .options = "UA",
    .needed = "",
    .files = 2,
    .run = update,
};
