/* tealsettle image: the bytes of MCS text, or of the image in a BIT file. */
#include "tool.h"

static int image(const Arguments *arguments)
{
    File image;
    check_not_read(arguments->files[0], arguments->output);
    int status = read_packed_image(arguments->files[0], &image);
    if (status == DONE)
        write_file(arguments->output, image.bytes, image.length);
    return status;
}

const Command image_command = {
    .name = "image",
    .usage = "TEXT -o FILE",
    .purpose = "The bytes of MCS text, or of the image in a BIT file",
    .help = "TEXT is told by its bytes, and - is standard input. The image need not be one that loads: that is what\n"
            "`tealsettle check` says. `tealsettle mcs` goes the other way.\n"
            "\n"
            "  -o FILE  where the bytes go, a file whole or not at all; - is standard output, which must not be a terminal\n"
            "\n"
            "Exit status: 0 done; 1 the text is refused; 2 wrong use, or trouble with a file.\n",
    .options = "o",
    .needed = "o",
    .files = 1,
    .run = image,
};
