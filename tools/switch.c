/* tealsettle switch: the switch word of a chip. */
#include "tool.h"

enum { SWITCH_WORD = 4092 }; /* its place */

static int show_switch(const Arguments *arguments)
{
    File chip = read_file(arguments->files[0], LONGEST_CHIP);
    TealsettleSwitch answer = tealsettle_switch(TEALSETTLE_SPI, chip.bytes, chip.length);
    if (answer.number != 0)
        return refused(chip.name, answer.number, answer.place);
    const uint8_t *word = chip.bytes + SWITCH_WORD;
    printf("switch %s: word %02X%02X%02X%02X\n", answer.on ? "ON" : "OFF", word[0], word[1], word[2], word[3]);
    return DONE;
}

const Command switch_command = {
    .name = "switch",
    .usage = "CHIP",
    .purpose = "Whether a chip's switch is ON, by which the FPGA chooses between its two images",
    .help = "CHIP is a dump of the chip, byte for byte, or - for standard input. The line has the switch word too, as it stands\n"
            "at 4092: AA995566 is ON, and every other word is OFF. On a chip that `tealsettle build` made, OFF loads the golden\n"
            "image and ON the update; `tealsettle report` says what any chip loads.\n"
            "\n"
            "Exit status: 0 the switch is told, ON or OFF; 1 it is no chip; 2 wrong use, or trouble with a file.\n",
    .options = "",
    .needed = "",
    .files = 1,
    .run = show_switch,
};
