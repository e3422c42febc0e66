/* tealsettle heaviest: the image with most writes. */
#include "tool.h"

#include <stdlib.h>

static int heaviest(const Arguments *arguments)
{
    const char *output = arguments->output ? arguments->output : "-";
    size_t length = arguments->words[0].value;
    size_t room = length < LONGEST_CHIP ? length : LONGEST_CHIP; /* a longer image is refused */
    uint8_t *image = held(malloc(room + 1));
    TealsettleMost most = tealsettle_heaviest_image(length, image, room);
    char name[64];
    snprintf(name, sizeof name, "%zu bytes", length);
    if (most.number != 0)
        return refused(name, most.number, most.place);
    FILE *messages = is_standard_output(output) ? stderr : stdout;
    write_file(output, image, length);
    fprintf(messages, "image of %s: writes %zu, and no accepted image of this length has more\n", name, most.writes);
    return DONE;
}

const Command heaviest_command = {
    .name = "heaviest",
    .usage = "N [-o FILE]",
    .purpose = "An image of N bytes with as many writes as an accepted one can have, for a test rack",
    .help = "N is 12 to 16777216, decimal or after 0x hexadecimal. The image is one packet of the command register, whose words are\n"
            "0 (no command) and at the end DESYNC; FF follows where N is no multiple of 4. How many writes it has is said on standard\n"
            "output, or on standard error where the bytes go to standard output. `tealsettle check` counts them, and\n"
            "`tealsettle build` takes the image as any other.\n"
            "\n"
            "  -o FILE  where the bytes go, a file whole or not at all; without it they go to standard output, which must not be a\n"
            "           terminal\n"
            "\n"
            "Exit status: 0 done; 1 there is no such image; 2 wrong use, or trouble with a file.\n",
    .options = "o",
    .needed = "",
    .words = 1,
    .numbers = true,
    .run = heaviest,
};
