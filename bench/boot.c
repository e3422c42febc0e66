/* The boot answer on chips of 16 MiB, beside the reference; and beside memmem, where there is only the search to do. */
#define _GNU_SOURCE
#include "bench.h"

#include <stdlib.h>
#include <string.h>

#include "../include/tealsettle.h"
#include "../reference/reference.h"

typedef struct {
    const uint8_t *chip;
    ReferenceBoot boot;
} Call;

static Answer answer(void *context)
{
    ReferenceBoot *b = &((Call *)context)->boot;
    return (Answer){{"number", "place", "stuck", "jumped", "sync", "end", "writes"},
                    {b->number, b->place, (size_t)b->stuck, (size_t)b->jumped, b->sync, b->end, b->writes}};
}

static int ours_job(void *context)
{
    Call *c = context;
    TealsettleBoot r = tealsettle_boot(TEALSETTLE_SPI, c->chip, MIB16);
    c->boot = (ReferenceBoot){r.number, r.place, (int)r.stuck, (int)r.jumped, r.sync, r.end, r.writes};
    return 1;
}

static int reference_job(void *context)
{
    Call *c = context;
    c->boot = reference_boot(c->chip, MIB16);
    return 1;
}

/* Only for chips without a sync word: then the search is the whole job. */
static int memmem_job(void *context)
{
    Call *c = context;
    const uint8_t *sync = memmem(c->chip, MIB16, "\xAA\x99\x55\x66", 4);
    c->boot = sync ? (ReferenceBoot){.sync = (size_t)(sync - c->chip)} : (ReferenceBoot){.place = MIB16, .stuck = 1};
    return 1;
}

typedef struct {
    const char *name;
    void (*make)(uint8_t *chip);
} Job;

static void rows(const Job *jobs, size_t count, const char *peer_name, int (*peer_job)(void *))
{
    uint8_t *chip = buffer(MIB16);
    Call ours = {chip, {0}}, peer = {chip, {0}};
    for (size_t i = 0; i < count; i++) {
        jobs[i].make(chip);
        Row row = {jobs[i].name, MIB16, {"tealsettle", ours_job, answer, &ours}, {peer_name, peer_job, answer, &peer}};
        table_row(&row);
    }
    free(chip);
}

void boot_rows(void)
{
    static const Job jobs[] = {
        {"boot: one long type 2 packet", make_long},
        {"boot: most writes", make_heaviest},
        {"boot: packets of 1 word", make_ones},
        {"boot: packets of 2 words", make_twos},
        {"boot: packets of 3 words", make_threes},
        {"boot: type 2 packets of 1 word", make_type2s},
        {"boot: no-operations", make_nops},
        {"boot: packets of 1 word of CMD", make_commands},
        {"boot: packets of 0 to 8 words, NOPs", make_mixed},
        {"boot: no sync, erased", make_erased},
        {"boot: no sync, random bytes", make_noise},
    };
    rows(jobs, sizeof jobs / sizeof *jobs, PLAIN_C, reference_job);
}

void search_rows(void)
{
    static const Job jobs[] = {{"boot: no sync, erased", make_erased}, {"boot: no sync, random bytes", make_noise}};
    rows(jobs, sizeof jobs / sizeof *jobs, "memmem", memmem_job);
}
