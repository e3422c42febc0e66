/* All writes of a chip of 16 MiB, packets of one word or as many as there can be, beside the reference: one by one, a call
 * each; and as a report, for which the reference lists them in memory first. */
#include "bench.h"

#include <stdlib.h>

#include "../include/tealsettle.h"
#include "../reference/reference.h"

typedef struct {
    const uint8_t *chip;
    ReferenceWrite *list;
    uint8_t *report;
    size_t most, writes, words, places, report_length;
} Call;

/* ---- One by one: how many there are, and the sums of their words and places ---- */

static void add_write(Call *c, uint32_t word, size_t place)
{
    c->writes++;
    c->words += word;
    c->places += place;
}

static int ours_list(void *context)
{
    Call *c = context;
    c->writes = c->words = c->places = 0;
    TealsettleCursor cursor = tealsettle_writes(TEALSETTLE_SPI, c->chip, MIB16).cursor;
    for (;;) {
        TealsettleStep step = tealsettle_next_write(TEALSETTLE_SPI, TEALSETTLE_CURSOR(cursor), c->chip, MIB16);
        if (!step.found)
            return 1;
        add_write(c, step.word, step.word_place);
        cursor = step.cursor;
    }
}

static int reference_list(void *context)
{
    Call *c = context;
    ReferenceBoot boot = reference_boot(c->chip, MIB16);
    ReferenceCursor cursor = {boot.sync + 4, 0, 0, boot.writes};
    ReferenceWrite write;
    c->writes = c->words = c->places = 0;
    while (reference_next_write(&cursor, c->chip, MIB16, &write))
        add_write(c, write.word, write.place);
    return 1;
}

static Answer list_answer(void *context)
{
    Call *c = context;
    return (Answer){{"writes", "sum of words", "sum of places"}, {c->writes, c->words, c->places}};
}

/* ---- As a report ---- */

static int ours_report(void *context)
{
    Call *c = context;
    c->report_length =
        tealsettle_report(TEALSETTLE_SPI, c->chip, MIB16, c->report, TEALSETTLE_REPORT_ROOM(c->most)).length;
    return 1;
}

static int reference_report_job(void *context)
{
    Call *c = context;
    ReferenceBoot boot = reference_boot_list(c->chip, MIB16, c->list, c->most);
    c->report_length = reference_report(&boot, c->list, c->report);
    return 1;
}

/* The report's length, and a sum in which every byte and its place count. */
static Answer report_answer(void *context)
{
    Call *c = context;
    size_t sum = 0;
    for (size_t i = 0; i < c->report_length; i++)
        sum = 31 * sum + c->report[i];
    return (Answer){{"length", "sum of bytes"}, {c->report_length, sum}};
}

static void chip_rows(const char *list_name, const char *report_name, const uint8_t *chip)
{
    size_t most = tealsettle_most_writes(MIB16).writes;
    Call ours = {.chip = chip, .most = most, .report = buffer(TEALSETTLE_REPORT_ROOM(most))};
    Call peer = {.chip = chip, .most = most, .report = buffer(TEALSETTLE_REPORT_ROOM(most)),
                 .list = buffer(most * sizeof(ReferenceWrite))};
    Row list = {list_name, MIB16, {"tealsettle", ours_list, list_answer, &ours}, {PLAIN_C, reference_list, list_answer, &peer}};
    Row report = {report_name, MIB16, {"tealsettle", ours_report, report_answer, &ours},
                  {PLAIN_C, reference_report_job, report_answer, &peer}};
    table_row(&list);
    table_row(&report);
    free(ours.report), free(peer.report), free(peer.list);
}

void list_rows(void)
{
    uint8_t *chip = buffer(MIB16);
    make_ones(chip);
    chip_rows("writes one by one: packets of 1 word", "report: packets of 1 word", chip);
    make_heaviest(chip);
    chip_rows("writes one by one: most writes", "report: most writes", chip);
    free(chip);
}
