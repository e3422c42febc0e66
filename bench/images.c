/* The image check, beside the reference: on made images, and on bitstreams that Vivado wrote, as BIT files, with their write to
 * register 19 made no-operations. */
#include "bench.h"

#include <stdio.h>
#include <stdlib.h>
#include <string.h>

#include "../include/tealsettle.h"
#include "../reference/reference.h"

typedef struct {
    const uint8_t *image;
    size_t length;
    ReferenceBoot boot;
} Call;

static Answer answer(void *context)
{
    ReferenceBoot *b = &((Call *)context)->boot;
    return (Answer){{"number", "place", "sync", "end", "writes"}, {b->number, b->place, b->sync, b->end, b->writes}};
}

static int ours_job(void *context)
{
    Call *c = context;
    TealsettleImage r = tealsettle_image_check(TEALSETTLE_SPI, c->image, c->length);
    c->boot = (ReferenceBoot){.number = r.number, .place = r.place, .sync = r.sync, .end = r.end, .writes = r.writes};
    return 1;
}

static int reference_job(void *context)
{
    Call *c = context;
    c->boot = reference_image_check(c->image, c->length, MIB16);
    return 1;
}

/* An image that is refused would be timed up to its fault only. */
static void image_row(const char *name, const uint8_t *image, size_t length)
{
    Call ours = {image, length, {0}}, peer = {image, length, {0}};
    Row row = {name, length, {"tealsettle", ours_job, answer, &ours}, {PLAIN_C, reference_job, answer, &peer}};
    table_row(&row);
    if (ours.boot.number != 0)
        printf("%s: the image is refused, %u at %zu\n", name, ours.boot.number, ours.boot.place), exit(1);
}

/* Vivado writes 0 to register 19, and is refused there (docs/DECISIONS.md, 181). With two no-operations in place of that packet the
 * rest is timed. */
static void pass_register_19(uint8_t *image, size_t length)
{
    static const uint8_t packet[8] = {0x30, 0x02, 0x60, 0x01}, nops[8] = {0x20, 0, 0, 0, 0x20};
    size_t place = tealsettle_image_check(TEALSETTLE_SPI, image, length).place;
    if (length - place >= sizeof packet && memcmp(image + place, packet, sizeof packet) == 0)
        memcpy(image + place, nops, sizeof nops);
}

/* The row is named by the file's name without its folder and its ending. */
static void file_row(const char *path)
{
    char name[64];
    const char *slash = strrchr(path, '/'), *base = slash ? slash + 1 : path;
    size_t length;
    uint8_t *file = load(path, &length);
    TealsettleForm form = tealsettle_file_form(file, length);
    if (form.form != TEALSETTLE_BIT)
        printf("%s is no BIT file\n", path), exit(1);
    snprintf(name, sizeof name, "image check: %.*s", (int)strcspn(base, "."), base);
    uint8_t *image = buffer(form.length);
    memcpy(image, file + form.first, form.length);
    unload(file, length);
    pass_register_19(image, form.length);
    image_row(name, image, form.length);
    free(image);
}

void image_rows(char *const *bitstreams, int count)
{
    uint8_t *image = buffer(MIB16);
    make_long(image);
    image_row("image check: one long type 2 packet", image, MIB16);
    make_heaviest(image);
    image_row("image check: most writes", image, MIB16);
    make_ones(image);
    image_row("image check: packets of 1 word", image, MIB16);
    image_row("image check: plain, made", image, make_plain_bitstream(image));
    image_row("image check: compressed, made", image, make_compressed_bitstream(image));
    for (int i = 0; i < count; i++)
        file_row(bitstreams[i]);
    free(image);
}
