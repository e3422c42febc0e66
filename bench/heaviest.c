/* The image with most writes, beside the reference: memset and a header. */
#include "bench.h"

#include <stdlib.h>

#include "../include/tealsettle.h"
#include "../reference/reference.h"

typedef struct {
    uint8_t *out;
    size_t length, number, writes;
} Call;

static int ours_job(void *context)
{
    Call *c = context;
    TealsettleMost most = tealsettle_heaviest_image(c->length, c->out, c->length);
    c->number = most.number, c->writes = most.writes;
    return 1;
}

static int reference_job(void *context)
{
    Call *c = context;
    c->number = reference_heaviest_image(c->length, c->out, c->length, &c->writes);
    return 1;
}

/* The sum tells where the bytes that are not 0 stand. */
static Answer answer(void *context)
{
    Call *c = context;
    size_t sum = 0;
    for (size_t i = 0; i < c->length; i++)
        sum += c->out[i] * (i + 1);
    return (Answer){{"number", "writes", "sum of the bytes"}, {c->number, c->writes, sum}};
}

static void heaviest_row(const char *name, uint8_t *ours_out, uint8_t *peer_out, size_t length)
{
    Call ours = {ours_out, length, 0, 0}, peer = {peer_out, length, 0, 0};
    Row row = {name, length, {"tealsettle", ours_job, answer, &ours}, {PLAIN_C, reference_job, answer, &peer}};
    table_row(&row);
}

void heaviest_rows(void)
{
    uint8_t *ours = buffer(MIB16), *peer = buffer(MIB16);
    heaviest_row("image with most writes, 16 MiB", ours, peer, MIB16);
    heaviest_row("image with most writes, 64 KiB", ours, peer, 64 << 10);
    heaviest_row("image with most writes, 4 KiB", ours, peer, 4 << 10);
    free(ours);
    free(peer);
}
