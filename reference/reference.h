/* The specification in C, once: packets and what loads, layouts and the builder, a run's orders and replies, the cut
 * run, what a cut can leave, the image with most writes, MCS text, the forms of image files and reports. The tests
 * compare the library with it, and the benchmark measures the library beside it: so it is written to be fast. It takes
 * nothing from the library but names for the numbers of refusals, orders and replies, and is compiled by itself, as a
 * library is, so that no call is optimised for its caller.
 *
 * A function that returns a uint32_t returns the number of a refusal or stop, or 0. A place is 0 where none is named,
 * and a refusal leaves all else that is lent as it was. */
#ifndef REFERENCE_H
#define REFERENCE_H

#include <stddef.h>
#include <stdint.h>
#include <string.h>

#include "../include/tealsettle.h"

/* Puts a word down, high byte first. */
static inline void reference_put_word(uint8_t *at, uint32_t word)
{
    uint32_t high_first = __builtin_bswap32(word);
    memcpy(at, &high_first, 4);
}

/* ---- Image files ---- */

typedef struct {
    uint32_t number;
    size_t place;
    uint32_t form;
    size_t first, length;
} ReferenceForm;

ReferenceForm reference_file_form(const uint8_t *file, size_t length);

typedef struct {
    uint32_t number;
    size_t place, length;
} ReferenceRead;

ReferenceRead reference_mcs_read(const uint8_t *text, size_t text_length, uint8_t *out, size_t out_length);

/* The one MCS text that is written for an image, and how long it is (0 for a refusal); and whether a text is such a one. */
uint32_t reference_mcs_length(size_t image_length, size_t *length);
uint32_t reference_mcs_write(const uint8_t *image, size_t image_length, uint8_t *out, size_t out_length, size_t *length);
int reference_mcs_form(const uint8_t *text, size_t text_length);

/* ---- What loads ---- */

/* Beside a refusal, and where nothing loads, all that does not apply is 0. */
typedef struct {
    uint32_t number;
    size_t place;
    int stuck, jumped;
    size_t sync, end, writes;
} ReferenceBoot;

typedef struct {
    uint32_t register_number, word;
    size_t place;
} ReferenceWrite;

ReferenceBoot reference_boot(const uint8_t *chip, size_t length);

/* The same, and as many of the writes as there is room for. Of a chip that is stuck the list means nothing. */
ReferenceBoot reference_boot_list(const uint8_t *chip, size_t length, ReferenceWrite *list, size_t room);

/* A place among the writes, and the step to the next one; 0 where none is left, and then the cursor is as it was. */
typedef struct {
    size_t at;
    uint32_t register_number;
    size_t left, remaining;
} ReferenceCursor;

int reference_next_write(ReferenceCursor *cursor, const uint8_t *bytes, size_t length, ReferenceWrite *write);

/* The report of a chip that was read so, and its length. The list is whole, and `out` has 27 bytes for each write, and 64
 * more. */
size_t reference_report(const ReferenceBoot *boot, const ReferenceWrite *list, uint8_t *out);

/* An image read by itself, for an area of `most` bytes: it is never stuck nor jumped, but refused. */
ReferenceBoot reference_image_check(const uint8_t *image, size_t length, size_t most);

/* ---- Layouts, and the first chip ---- */

enum {
    REFERENCE_CHIP_MIN = 16384,
    REFERENCE_CHIP_MAX = 16777216,
    REFERENCE_GOLDEN = 8192,      /* where the golden area begins */
    REFERENCE_UPDATE_MIN = 12288, /* where an update area can begin */
};

/* The questions about a layout are asked at each order and each reply: here, so that they cost no call. */

static inline int reference_length_allowed(size_t length)
{
    return length % TEALSETTLE_SEGMENT == 0 && length >= REFERENCE_CHIP_MIN && length <= REFERENCE_CHIP_MAX;
}

static inline uint32_t reference_layout(size_t length, size_t update, size_t area)
{
    if (!reference_length_allowed(length))
        return TEALSETTLE_REFUSED_BAD_CHIP_LENGTH;
    if (update % TEALSETTLE_SEGMENT != 0 || update < REFERENCE_UPDATE_MIN || update >= length)
        return TEALSETTLE_REFUSED_BAD_UPDATE_PLACE;
    if (area % TEALSETTLE_SEGMENT != 0 || area == 0 || area > length - update)
        return TEALSETTLE_REFUSED_BAD_UPDATE_LENGTH;
    return 0;
}

/* The place that segment 1 names; without one, and for a refusal, both are 0. */
uint32_t reference_update_place(const uint8_t *chip, size_t length, int *found, size_t *update);

uint32_t reference_build(size_t length, size_t update, size_t area, const uint8_t *golden, size_t golden_length,
                         uint8_t *out, size_t out_length, size_t *place);

/* ---- A run ---- */

typedef struct {
    size_t length, update, area, image_length;
    uint32_t phase;
    size_t index;
    uint32_t outcome;
} ReferenceState;

enum { REFERENCE_ENDED = 7 }; /* the phase after the last order */

typedef struct {
    uint32_t operation;
    size_t address, length;
    const uint8_t *bytes; /* of a program, else null; they are not copied */
} ReferenceOrder;

uint32_t reference_start(ReferenceState *state, size_t length, size_t update, size_t area, const uint8_t *image,
                         size_t image_length, size_t *place);
uint32_t reference_total(size_t length, size_t update, size_t area, size_t image_length, size_t *orders);
uint32_t reference_order(const ReferenceState *state, const uint8_t *image, size_t image_length, ReferenceOrder *order);
uint32_t reference_finished(const ReferenceState *state, int *ended, uint32_t *outcome);

/* The number of the state's order in its run, counted from 1, and how many there are; both 0 for a refusal. */
uint32_t reference_progress(const ReferenceState *state, size_t *order, size_t *orders);

/* The state is changed in place. */
uint32_t reference_reply(ReferenceState *state, const uint8_t *image, size_t image_length, uint32_t reply_kind,
                         const uint8_t *bytes, size_t bytes_length, size_t *place);

/* These ask nothing: the state is one that fits. */

size_t reference_orders_in_phase(const ReferenceState *state);
size_t reference_orders_in_all(const ReferenceState *state);

/* The state after the order of a state before phase 7 has gone well. */
void reference_advance(ReferenceState *state);

/* The bytes that a look has to find. `padded_page` is used for the page where the image ends. */
const uint8_t *reference_expected_bytes(const ReferenceState *state, const uint8_t *image,
                                        uint8_t padded_page[TEALSETTLE_PAGE]);

/* ---- The switch words that a cut order can leave, and those of them that are ON ---- */

typedef struct {
    uint64_t words, on;
} ReferenceCounts;

ReferenceCounts reference_after_program(uint32_t old_word, uint32_t ordered_word);
ReferenceCounts reference_after_erase(uint32_t old_word);

/* ---- The greatest number of writes that an accepted image of n bytes can have, and such an image ---- */

uint32_t reference_most_writes(size_t n, size_t *writes);
uint32_t reference_heaviest_image(size_t n, uint8_t *out, size_t out_length, size_t *writes);

/* ---- A run on a chip's bytes, cut in the order after the first `k` ---- */

uint32_t reference_cut_run(uint8_t *chip, size_t chip_length, size_t update, size_t area, const uint8_t *image,
                           size_t image_length, size_t k, const uint8_t *damage, size_t damage_length,
                           ReferenceState *state, size_t *place);

#endif
