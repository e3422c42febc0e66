/* Images in the forms that other tools write, told by their bytes, never by their names. */
#include "tool.h"

#include <stdlib.h>
#include <string.h>

static File read_image_file(const char *name)
{
    File file = read_file(name, LONGEST_FILE);
    if (file.length > LONGEST_FILE)
        trouble(file.name, "is longer than any image file");
    return file;
}

/* An image has fewer bytes than half its text. */
int image_of_text(const File *text, File *image)
{
    size_t room = text->length / 2 + 1;
    *image = (File){.name = joined(text->name, " (image in MCS text)"), .bytes = held(malloc(room))};
    TealsettleRead answer = tealsettle_mcs_read(text->bytes, text->length, image->bytes, room);
    image->length = answer.length;
    return answer.number == 0 ? DONE : refused_text(text, answer.number, answer.place);
}

/* The image's name says what it was taken from: the place of a refusal is one in the image, not in the file. */
static int image_of_form(const File *file, const TealsettleForm *form, File *image)
{
    if (form->number != 0)
        return refused_because(joined(file->name, " (BIT file)"), form->number, form->place,
                               "its fields a to e do not lead to an image within the file");
    if (form->form == TEALSETTLE_TEXT)
        return image_of_text(file, image);
    if (form->form == TEALSETTLE_BIT)
        *image = (File){joined(file->name, " (image in a BIT file)"), file->bytes + form->first, form->length};
    else
        *image = (File){joined(file->name, " (plain binary)"), file->bytes, file->length};
    return DONE;
}

int read_image(const char *name, File *image)
{
    File file = read_image_file(name);
    TealsettleForm form = tealsettle_file_form(file.bytes, file.length);
    return image_of_form(&file, &form, image);
}

int read_packed_image(const char *name, File *image)
{
    File file = read_image_file(name);
    TealsettleForm form = tealsettle_file_form(file.bytes, file.length);
    if (form.form == TEALSETTLE_BINARY)
        form.form = TEALSETTLE_TEXT;
    return image_of_form(&file, &form, image);
}

/* The length of the byte order mark that a file begins with, of UTF-8 (3) or of UTF-16 (2); 0 for none. */
static size_t mark_length(const File *file)
{
    if (file->length >= 3 && memcmp(file->bytes, "\xEF\xBB\xBF", 3) == 0)
        return 3;
    bool wide = file->length >= 2 && (memcmp(file->bytes, "\xFF\xFE", 2) == 0 || memcmp(file->bytes, "\xFE\xFF", 2) == 0);
    return wide ? 2 : 0;
}

/* Whether a file begins as a text does: with a colon, also after a byte order mark or blanks. So does a text that is told as
 * plain bytes for that mark, or for another byte above 7F by which it is damaged. */
static bool begins_as_text(const File *file)
{
    static const char blanks[] = " \t\r\n"; /* and a zero: in UTF-16 each of these characters has one beside it */
    size_t mark = mark_length(file), kinds = sizeof blanks - (mark != 2), at = mark;
    while (at < file->length && memchr(blanks, file->bytes[at], kinds))
        at++;
    return at < file->length && file->bytes[at] == ':';
}

/* Says how an image is taken that was read as a text: of a text that is just wrong there is no more to say. */
static void hint_at_plain(const File *file, bool told_as_text, bool begins)
{
    if (told_as_text && !begins)
        fprintf(stderr, "tealsettle: %s: it was read as text, as it has no byte above 7F: if it is the image itself, give -b\n",
                file->name);
    if (!told_as_text)
        fprintf(stderr, "tealsettle: %s: it was read as text, as it begins with a colon: give -b only if it is the image itself\n",
                file->name);
}

/* An empty file is an empty image: it is refused for its length, not as a text without an end. */
int read_any_image(const char *name, bool plain, File *image)
{
    File file = read_image_file(name);
    TealsettleForm form = tealsettle_file_form(file.bytes, file.length);
    bool told_as_text = form.form == TEALSETTLE_TEXT, begins = begins_as_text(&file);
    if (plain || file.length == 0)
        form = (TealsettleForm){.form = TEALSETTLE_BINARY};
    else if (form.form == TEALSETTLE_BINARY && begins)
        form.form = TEALSETTLE_TEXT;
    int status = image_of_form(&file, &form, image);
    if (status != DONE && form.form == TEALSETTLE_TEXT)
        hint_at_plain(&file, told_as_text, begins);
    return status;
}

int text_of_image(const File *image, File *text)
{
    size_t room = tealsettle_mcs_length(image->length).length; /* 0 for an image that is refused */
    *text = (File){.name = image->name, .bytes = held(malloc(room + 1))};
    TealsettleText answer = tealsettle_mcs_write(image->bytes, image->length, text->bytes, room);
    char why[80];
    snprintf(why, sizeof why, "it has %zu bytes, and an image has 1 to 16777216", image->length);
    text->length = answer.length;
    return answer.number == 0 ? DONE : refused_because(image->name, answer.number, answer.place, why);
}

int refused_image(const File *image, uint32_t number, size_t place)
{
    const char *why = number == TEALSETTLE_REFUSED_IMAGE_FAULT ? register_words(image, place) : NULL;
    return refused_because(image->name, number, place, why ? why : tealsettle_refusal_words(number));
}
