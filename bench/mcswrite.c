/* Writing an image of 16 MiB as MCS text: file to file beside tools that do the same job, each a process of its own; and the
 * call alone, from memory to memory, beside the reference. And the test of the text's form, beside the reference and beside our
 * own reader. */
#include "bench.h"

#include <stdio.h>
#include <stdlib.h>
#include <string.h>
#include <unistd.h>

#include "../include/tealsettle.h"
#include "../reference/reference.h"

enum { PATH = 4096 };

/* ---- File to file ---- */

static int is_text(const Made *made, const uint8_t *file, size_t length)
{
    return length == made->length && memcmp(file, made->text, length) == 0;
}

static unsigned pair_at(const uint8_t *text)
{
    static const char digits[] = "0123456789ABCDEF";
    const char *high = memchr(digits, text[0], 16), *low = memchr(digits, text[1], 16);
    return high && low ? (unsigned)(16 * (high - digits) + (low - digits)) : 256;
}

/* Whether the data of a line are those bytes of the image. */
static int holds_data(const uint8_t *line, const uint8_t *image, size_t count)
{
    for (size_t i = 0; i < count; i++)
        if (pair_at(line + 9 + 2 * i) != image[i])
            return 0;
    return 1;
}

/* objcopy has other records between the data, and CR LF: what its text must have is the image's bytes in its data records. */
static int has_data(const Made *made, const uint8_t *file, size_t length)
{
    size_t at = 0, next = 0;
    while (at + 11 <= length) {
        size_t count = pair_at(file + at + 1), end = at + 2 * count + 11;
        int is_data = pair_at(file + at + 7) == 0;
        if (end > length || (is_data && (next + count > MIB16 || !holds_data(file + at, made->image + next, count))))
            return 0;
        next += is_data ? count : 0;
        at = end + (end < length && file[end] == '\r' ? 2 : 1);
    }
    return next == MIB16;
}

/* The text's length is known before it is written: so it goes straight into its file, and is copied nowhere. */
int mcs_write_file(const char *in, const char *out_path)
{
    size_t length;
    uint8_t *image = load(in, &length);
    TealsettleText text = tealsettle_mcs_length(length);
    if (text.number == 0) {
        uint8_t *out = new_file(out_path, text.length);
        text = tealsettle_mcs_write(image, length, out, text.length);
        unload(out, text.length);
    }
    if (text.number != 0)
        fprintf(stderr, "refused %u at %zu\n", text.number, text.place);
    return text.number != 0;
}

void mcs_write_file_rows(const char *directory, char *self)
{
    Made made = make_text();
    char in[PATH], ours_out[PATH], peer_out[PATH];
    snprintf(in, sizeof in, "%s/image.bin", directory);
    snprintf(ours_out, sizeof ours_out, "%s/ours.mcs", directory);
    snprintf(peer_out, sizeof peer_out, "%s/peer.mcs", directory);
    store(in, made.image, MIB16);
    char *ours_command[] = {self, "write", in, ours_out, NULL};
    char *objcopy_command[] = {"objcopy", "-I", "binary", "-O", "ihex", in, peer_out, NULL};
    char *srec_cat_command[] = {"srec_cat", in, "-Binary", "-o", peer_out, "-Intel", "-obs=16", NULL};
    Process ours = {ours_command, ours_out, is_text, &made}, objcopy = {objcopy_command, peer_out, has_data, &made},
            srec_cat = {srec_cat_command, peer_out, is_text, &made};
    process_row("image to MCS text, file to file", MIB16, &ours, &objcopy);
    unlink(peer_out);
    process_row("image to MCS text, file to file", MIB16, &ours, &srec_cat);
    free_text(made);
}

/* ---- The calls alone ---- */

typedef struct {
    const Made *made;
    uint8_t *out;
    size_t number, length, in_form;
} Call;

static int ours_write(void *context)
{
    Call *c = context;
    TealsettleText text = tealsettle_mcs_write(c->made->image, MIB16, c->out, c->made->length);
    c->number = text.number, c->length = text.length;
    return 1;
}

static int reference_write(void *context)
{
    Call *c = context;
    c->number = reference_mcs_write(c->made->image, MIB16, c->out, c->made->length, &c->length);
    return 1;
}

/* A sum in which every character and its place count. */
static Answer write_answer(void *context)
{
    Call *c = context;
    size_t sum = 0;
    for (size_t i = 0; i < c->length; i++)
        sum = 31 * sum + c->out[i];
    return (Answer){{"number", "length", "sum of the text"}, {c->number, c->length, sum}};
}

static int ours_form(void *context)
{
    Call *c = context;
    c->in_form = tealsettle_mcs_form(c->made->text, c->made->length);
    return 1;
}

static int reference_form(void *context)
{
    Call *c = context;
    c->in_form = (size_t)reference_mcs_form(c->made->text, c->made->length);
    return 1;
}

/* The reader asks other questions, and writes the image: what both say of this text is yes. */
static int reader(void *context)
{
    Call *c = context;
    c->in_form = tealsettle_mcs_read(c->made->text, c->made->length, c->out, MIB16).number == 0;
    return 1;
}

static Answer form_answer(void *context)
{
    return (Answer){{"in form"}, {((Call *)context)->in_form}};
}

void mcs_write_rows(void)
{
    Made made = make_text();
    Call ours = {.made = &made, .out = buffer(made.length)}, peer = {.made = &made, .out = buffer(made.length)};
    Row row = {"image to MCS text, the call alone", MIB16, {"tealsettle", ours_write, write_answer, &ours},
               {PLAIN_C, reference_write, write_answer, &peer}};
    table_row(&row);
    row = (Row){"form test of MCS text", made.length, {"tealsettle", ours_form, form_answer, &ours},
                {PLAIN_C, reference_form, form_answer, &peer}};
    table_row(&row);
    free(ours.out), free(peer.out);
    free_text(made);
}

void mcs_reader_row(void)
{
    Made made = make_text();
    Call ours = {.made = &made}, peer = {.made = &made, .out = buffer(MIB16)};
    Row row = {"form test of MCS text", made.length, {"tealsettle", ours_form, form_answer, &ours},
               {"mcs_read", reader, form_answer, &peer}};
    table_row(&row);
    free(peer.out);
    free_text(made);
}
