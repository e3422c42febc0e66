/* tealsettle mcs: an image as MCS text. */
#include "tool.h"

static int write_mcs(const Arguments *arguments)
{
    const char *input = arguments->files[0], *output = arguments->output ? arguments->output : "-";
    File image, text;
    check_not_read(input, output);
    int status = read_any_image(input, arguments->plain, &image);
    if (status == DONE)
        status = text_of_image(&image, &text);
    if (status != DONE)
        return status;
    FILE *messages = is_standard_output(output) ? stderr : stdout;
    write_text(output, text.bytes, text.length);
    fprintf(messages, "%s: image of %zu byte%s, as MCS text of %zu bytes\n", image.name, image.length,
            image.length == 1 ? "" : "s", text.length);
    return DONE;
}

const Command mcs_command = {
    .name = "mcs",
    .usage = "[-b] IMAGE [-o FILE]",
    .purpose = "An image as MCS text: for each image there is one such text",
    .help = "IMAGE is MCS text, a BIT file or the image itself, told by its bytes; - is standard input. The image need not be one\n"
            "that loads: any 1 to 16777216 bytes are taken. A file that has no byte above 7F is read as MCS text, and so is one that\n"
            "begins with a colon, also after a byte order mark or blanks: so most damaged texts are refused, and not taken for an\n"
            "image. Look at what the command says that it took the file for.\n"
            "\n"
            "  -b       the bytes of IMAGE are the image, whatever they look like\n"
            "  -o FILE  where the text goes, a file whole or not at all; without it the text goes to standard output\n"
            "\n"
            "The text has a record of type 04 before the data at each multiple of 65536, the first at 0; records of 16 bytes, the\n"
            "last of which may be shorter; the end record; capital digits, and LF after each record. What the file was taken for,\n"
            "and how long image and text are, is said on standard output, or on standard error where the text goes to standard\n"
            "output.\n"
            "`tealsettle image` gives the image back, and `tealsettle is-mcs` says whether a text is in this form.\n"
            "\n"
            "Exit status: 0 done; 1 the image is refused; 2 wrong use, or trouble with a file.\n",
    .options = "bo",
    .needed = "",
    .files = 1,
    .run = write_mcs,
};
