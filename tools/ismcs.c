/* tealsettle is-mcs: whether a text is the one that `tealsettle mcs` writes for its image. */
#include "tool.h"

#include <string.h>

/* The most characters that a line of the form has. */
enum { LONGEST_LINE = 43 };

/* The line at a place: no more of it than a line of the form can have, and how it ends, if that is not LF. */
static char *line_words(const File *text, size_t place)
{
    const char *line = (const char *)text->bytes + place;
    const char *end = memchr(line, '\n', text->length - place);
    size_t length = end ? (size_t)(end - line) : text->length - place;
    bool cr = length > 0 && line[length - 1] == '\r';
    char words[LONGEST_LINE + 1] = "";
    length -= cr;
    memcpy(words, line, length < LONGEST_LINE ? length : LONGEST_LINE);
    return joined(joined(words, length > LONGEST_LINE ? "..." : ""), cr ? " with CR LF" : "");
}

/* Says which line is the first that is not as in the text that is to be. */
static int refused_line(const File *text, const File *expected)
{
    size_t line = 1, begin = 0;
    for (size_t i = 0; i < text->length && i < expected->length && text->bytes[i] == expected->bytes[i]; i++)
        if (text->bytes[i] == '\n') {
            line++;
            begin = i + 1;
        }
    char why[256];
    snprintf(why, sizeof why, "it is MCS text in another form: line %zu is %s, where `tealsettle mcs` writes %s", line,
             line_words(text, begin), line_words(expected, begin));
    return refused_in_words(text->name, why);
}

/* Only the words are found here: that the answer is no has been told. */
static int say_why(const File *text)
{
    File image, expected;
    if (text->length > LONGEST_FILE)
        return refused_in_words(text->name, "it is longer than any text in this form");
    int status = image_of_text(text, &image);
    if (status == DONE)
        status = text_of_image(&image, &expected);
    return status == DONE ? refused_line(text, &expected) : status;
}

/* What is in this form is read: the image is asked for its length. */
static int say_yes(const File *text)
{
    File image;
    image_of_text(text, &image);
    printf("yes: the MCS text that `tealsettle mcs` writes for an image of %zu byte%s\n", image.length,
           image.length == 1 ? "" : "s");
    return DONE;
}

static int is_mcs(const Arguments *arguments)
{
    File text = read_file(arguments->files[0], LONGEST_FILE);
    return tealsettle_mcs_form(text.bytes, text.length) ? say_yes(&text) : say_why(&text);
}

const Command is_mcs_command = {
    .name = "is-mcs",
    .usage = "TEXT",
    .purpose = "Whether a text is in the form in which `tealsettle mcs` writes its image",
    .help = "TEXT may be - for standard input. For each image there is one text in this form: `tealsettle mcs --help` says how it\n"
            "looks. Where the answer is no, it is said why: what is wrong with the text, by line and column; or how many bytes it\n"
            "holds, where those are none or too many; or else the first line that differs, and what `tealsettle mcs` writes there.\n"
            "\n"
            "Exit status: 0 it is in this form; 1 it is not; 2 wrong use, or trouble with a file.\n",
    .options = "",
    .needed = "",
    .files = 1,
    .run = is_mcs,
};
