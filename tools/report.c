/* tealsettle report: the boot report of a chip. */
#include "tool.h"

#include <stdlib.h>

static int report(const Arguments *arguments)
{
    File chip = read_file(arguments->files[0], LONGEST_CHIP);
    TealsettleBoot boot = tealsettle_boot(TEALSETTLE_SPI, chip.bytes, chip.length);
    size_t room = TEALSETTLE_REPORT_ROOM(boot.writes);
    uint8_t *text = held(malloc(room));
    TealsettleReport answer = tealsettle_report(TEALSETTLE_SPI, chip.bytes, chip.length, text, room);
    if (answer.number != 0)
        return refused(chip.name, answer.number, answer.place);
    fwrite(text, 1, answer.length, stdout);
    if (tealsettle_loads(boot))
        return DONE;
    say_stuck(&chip, boot.place);
    return ANSWER_NO;
}

const Command report_command = {
    .name = "report",
    .usage = "CHIP",
    .purpose = "What a chip loads: a line that names it, a line for each write to a configuration register, and the end",
    .help = "CHIP is a dump of the chip, byte for byte, or - for standard input.\n"
            "\n"
            "The first line is `LOADED golden` or `LOADED update`. Each WRITE has the register, the word and its place;\n"
            "END has the place after the last word. Those are hexadecimal; the number of writes after them is decimal. A\n"
            "chip that loads nothing has one line, `STUCK` and the place of the faulty word, or the chip's length where\n"
            "the bytes ran out. Any other report without its END line was cut. Where the faulty word is a header that names\n"
            "a register which the FPGA guide does not list, standard error has the register, and the place in decimal.\n"
            "\n"
            "Exit status: 0 the chip loads an image; 1 it is stuck, or is no chip; 2 wrong use, or trouble with a file.\n",
    .options = "",
    .needed = "",
    .files = 1,
    .run = report,
};
