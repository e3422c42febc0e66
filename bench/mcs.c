/* Reading MCS text: a 16 MiB image as text, file to file beside tools that do the same job, each a process of
 * its own; and the calls alone, from memory to memory, beside the reference. */
#include "bench.h"

#include <stdio.h>
#include <stdlib.h>
#include <string.h>
#include <unistd.h>

#include "../include/tealsettle.h"
#include "../reference/reference.h"

enum { PATH = 4096 };

Made make_text(void)
{
    size_t length = tealsettle_mcs_length(MIB16).length;
    Made m = {.image = buffer(MIB16), .text = buffer(length)};
    fill_random(m.image, MIB16);
    m.length = tealsettle_mcs_write(m.image, MIB16, m.text, length).length;
    return m;
}

void free_text(Made made)
{
    free(made.image);
    free(made.text);
}

/* ---- File to file ---- */

static int is_image(const Made *made, const uint8_t *file, size_t length)
{
    return length == MIB16 && memcmp(file, made->image, MIB16) == 0;
}

int mcs_read_file(const char *in, const char *out_path)
{
    size_t length;
    uint8_t *text = load(in, &length);
    uint8_t *out = malloc(length / 2 + 1);
    if (!out)
        fail("malloc");
    TealsettleRead r = tealsettle_mcs_read(text, length, out, length / 2 + 1);
    if (r.number != 0) {
        fprintf(stderr, "refused %u at %zu\n", r.number, r.place);
        return 1;
    }
    store(out_path, out, r.length);
    return 0;
}

void mcs_file_rows(const char *directory, char *self)
{
    Made made = make_text();
    char in[PATH], ours_out[PATH], peer_out[PATH];
    snprintf(in, sizeof in, "%s/image.mcs", directory);
    snprintf(ours_out, sizeof ours_out, "%s/ours.bin", directory);
    snprintf(peer_out, sizeof peer_out, "%s/peer.bin", directory);
    store(in, made.text, made.length);
    char *ours_command[] = {self, "read", in, ours_out, NULL};
    char *objcopy_command[] = {"objcopy", "-I", "ihex", "-O", "binary", in, peer_out, NULL};
    char *srec_cat_command[] = {"srec_cat", in, "-Intel", "-o", peer_out, "-Binary", NULL};
    Process ours = {ours_command, ours_out, is_image, &made}, objcopy = {objcopy_command, peer_out, is_image, &made},
            srec_cat = {srec_cat_command, peer_out, is_image, &made};
    process_row("MCS text to image, file to file", made.length, &ours, &objcopy);
    unlink(peer_out);
    process_row("MCS text to image, file to file", made.length, &ours, &srec_cat);
    free_text(made);
}

/* ---- The call alone ---- */

typedef struct {
    const uint8_t *text, *image;
    size_t length;
    uint8_t *out;
    ReferenceRead read;
    uint32_t form;
} Call;

static int ours_call(void *context)
{
    Call *c = context;
    TealsettleRead r = tealsettle_mcs_read(c->text, c->length, c->out, MIB16);
    c->read = (ReferenceRead){r.number, r.place, r.length};
    return 1;
}

static int reference_call(void *context)
{
    Call *c = context;
    c->read = reference_mcs_read(c->text, c->length, c->out, MIB16);
    return 1;
}

static Answer call_answer(void *context)
{
    Call *c = context;
    return (Answer){{"number", "place", "length", "image is the one given"},
                    {c->read.number, c->read.place, c->read.length, memcmp(c->out, c->image, MIB16) == 0}};
}

/* ---- What form the text's file has ---- */

static int ours_form(void *context)
{
    Call *c = context;
    c->form = tealsettle_file_form(c->text, c->length).form;
    return 1;
}

static int reference_form(void *context)
{
    Call *c = context;
    c->form = reference_file_form(c->text, c->length).form;
    return 1;
}

static Answer form_answer(void *context)
{
    return (Answer){{"form"}, {((Call *)context)->form}};
}

void mcs_call_rows(void)
{
    Made made = make_text();
    Call ours = {.text = made.text, .image = made.image, .length = made.length, .out = buffer(MIB16)};
    Call peer = {.text = made.text, .image = made.image, .length = made.length, .out = buffer(MIB16)};
    Row row = {"MCS text to image, the call alone", made.length, {"tealsettle", ours_call, call_answer, &ours},
               {PLAIN_C, reference_call, call_answer, &peer}};
    table_row(&row);
    row.name = "form of a file: MCS text";
    row.ours = (Side){"tealsettle", ours_form, form_answer, &ours};
    row.peer = (Side){PLAIN_C, reference_form, form_answer, &peer};
    table_row(&row);
    free(ours.out), free(peer.out);
    free_text(made);
}
