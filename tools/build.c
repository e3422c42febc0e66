/* tealsettle build: the first chip of a printer. */
#include "tool.h"

#include <stdlib.h>

static int build(const Arguments *arguments)
{
    size_t length = arguments->length.value, update = arguments->update.value;
    size_t area = read_area(arguments, length, update);
    size_t room = length < LONGEST_CHIP ? length : LONGEST_CHIP; /* a longer chip is refused */
    File golden, chip = {"the new chip", held(malloc(room + 1)), length};
    check_not_read(arguments->files[0], arguments->output);
    int status = read_image(arguments->files[0], &golden);
    if (status != DONE)
        return status;
    TealsettleBuild answer =
        tealsettle_build(TEALSETTLE_SPI, length, update, area, golden.bytes, golden.length, chip.bytes, room);
    if (answer.number != 0)
        return refused_run(chip.name, &golden, answer.number, answer.place);
    FILE *messages = is_standard_output(arguments->output) ? stderr : stdout;
    write_file(arguments->output, chip.bytes, chip.length);
    return say_boot(messages, &chip);
}

const Command build_command = {
    .name = "build",
    .usage = "-F N -U N [-A N] GOLDEN -o CHIP",
    .purpose = "A printer's first chip, which loads its golden image",
    .help = "GOLDEN is MCS text, a BIT file or the image itself, told by its bytes; - is standard input.\n"
            "\n"
            "  -F N     the chip's length: a multiple of 4096 from 16384 to 16777216\n"
            "  -U N     where the update area begins: a multiple of 4096 from 12288 on; the golden image ends before it\n"
            "  -A N     how long the update area is; without it, up to the chip's end\n"
            "  -o CHIP  where the chip's bytes go, a file whole or not at all; - is standard output, which must not be a terminal\n"
            "\n"
            "Numbers are decimal, or hexadecimal after 0x.\n"
            "\n"
            "Exit status: 0 done; 1 the layout or the image is refused; 2 wrong use, or trouble with a file.\n",
    .options = "FUAo",
    .needed = "FUo",
    .files = 1,
    .run = build,
};
