/* tealsettle check: what an image loads by itself. */
#include "tool.h"

/* One pass over the image, in the lines of a boot report. */
static void print_writes(const File *image)
{
    TealsettleCursor cursor = tealsettle_image_writes(TEALSETTLE_SPI, image->bytes, image->length).cursor;
    for (;;) {
        TealsettleStep step = tealsettle_list_next(TEALSETTLE_SPI, cursor, image->bytes, image->length);
        if (!step.found)
            return;
        printf("WRITE %02X %08X %08zX\n", (unsigned)step.register_number, (unsigned)step.word, step.word_place);
        cursor = step.cursor;
    }
}

static int check(const Arguments *arguments)
{
    File image;
    int status = read_image(arguments->files[0], &image);
    if (status != DONE)
        return status;
    TealsettleImage answer = tealsettle_image_check(TEALSETTLE_SPI, image.bytes, image.length);
    if (answer.number != 0)
        return refused_image(&image, answer.number, answer.place);
    if (arguments->writes)
        print_writes(&image);
    printf("image of %zu bytes: sync %zu, end %zu, writes %zu\n", image.length, answer.sync, answer.end, answer.writes);
    return DONE;
}

const Command check_command = {
    .name = "check",
    .usage = "[-w] IMAGE",
    .purpose = "What an image loads by itself, or why no chip can be given it",
    .help = "IMAGE is MCS text, a BIT file or the image itself, told by its bytes; - is standard input.\n"
            "\n"
            "  -w  every write too: register, word and its place in the image, as in a boot report\n"
            "\n"
            "The last line has the place of the sync word, the place after the last word, and the number of writes.\n"
            "\n"
            "A write header that names a register which the FPGA guide does not list (it lists 0 to 14, 16, 17, 22, 24 and\n"
            "31) is refused. The register is named; and if the image would load with such registers admitted, that is said\n"
            "too, and which they are.\n"
            "\n"
            "Exit status: 0 the image is accepted; 1 it is refused; 2 wrong use, or trouble with a file.\n",
    .options = "w",
    .needed = "",
    .files = 1,
    .run = check,
};
