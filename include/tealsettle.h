/* Tealsettle for a printer's C host. Link libtealsettle.a, which `make` makes (target/libtealsettle.a) and `make install`
 * installs. A host that has the chip in a flash of its own needs few of the functions:
 *
 *     tealsettle_mcs_read   an image file in MCS text to the image's bytes
 *     tealsettle_update     a whole update, over the host's own functions to erase, program and read
 *     tealsettle_boot       what the printer then loads: ask tealsettle_loads of the answer whether it loads at all
 *
 * `number` does not say whether a chip loads: a chip that is stuck is an answer, with number 0 and `stuck` 1.
 * tealsettle_loads says it.
 *
 * Every proved function takes numbers and byte slices (a pointer, then a length) and returns a plain struct; only
 * tealsettle_mcs_form returns a number, 1 or 0. None asks anything of its numbers and bytes: every input gets an answer or a
 * numbered refusal. Not proved is the little that is plain C: the inline functions below, which only hand on what they are
 * given, tealsettle_version, and tealsettle_update, which is a loop over the proved calls (library/update.c).
 *
 * Memory stays the caller's: no function keeps a pointer, allocates, prints or stops the program. None has memory of its
 * own, so several threads may call them at once, each on its own chip. A `const` slice is only read. A refusal leaves every
 * lent byte as it was: its number and place are in the struct that is returned. A slice's pointer may be null where its
 * length is 0, and only there. Two slices of one call do not overlap. Lengths are below 2^63.
 *
 * `number`, in each struct that has one, is 0 or the number of a refusal; that of a reply and of an update also holds the
 * number of a stop, 10 to 12, which is no refusal. `place` is the place of that refusal or stop; of a chip that is stuck,
 * whose number is 0, it is the place where it is stuck. What does not apply is 0: so is every other field beside a refusal,
 * but for the state of a reply, which is the one that was given, and the bytes of an order, which are FF.
 *
 * Where an answer depends on the kind of chip, `kind` is the first argument: TEALSETTLE_SPI. Any other
 * number is refused before all else, with 1 at 0, or with 7 at 0 where a run's state is given. (The specification
 * has no such question yet: docs/DECISIONS.md, 81.) The calls that count switch words, and those for the image with most
 * writes, take none: they are about SPI chips.
 *
 * A layout is three numbers: `length` (F), the chip's length; `update` (U), where its update area
 * begins; `area` (A), how long that is.
 *
 * The refusals, and the stops of a run, are the enum below, and tealsettle_refusal_words says what each means;
 * docs/REFUSALS.md says which place each names, and in which order they are asked. */
#ifndef TEALSETTLE_H
#define TEALSETTLE_H

/* The library is compiled for one kind of machine: elsewhere it could not be linked, or its structs would be others. */
#if !defined(__x86_64__) || defined(__ILP32__) || !defined(__ELF__) || defined(_WIN32) || defined(__CYGWIN__)
#error "libtealsettle.a is for 64-bit little-endian x86-64 hosts with the System V calling convention: see README.md"
#endif

#include <stddef.h>
#include <stdint.h>

#ifdef __cplusplus
extern "C" {
#endif

/* The version of this header: as text, and as a number, its parts times 10,000, 100 and 1. */
#define TEALSETTLE_VERSION "0.17.0"
#define TEALSETTLE_VERSION_NUMBER 1700u

/* An answer that nobody looks at is a mistake: a refusal would go unnoticed. */
#if defined(__GNUC__)
#define TEALSETTLE_MUST_USE __attribute__((warn_unused_result))
#else
#define TEALSETTLE_MUST_USE
#endif

/* The version of the library that is linked, as TEALSETTLE_VERSION_NUMBER. */
TEALSETTLE_MUST_USE
uint32_t tealsettle_version(void);

/* The kind of chip that the FPGA reads over SPI. */
#define TEALSETTLE_SPI 0u

/* What a reply says: an erase or program is done; or here are the bytes that a look read. */
#define TEALSETTLE_DONE 0u
#define TEALSETTLE_READ 1u

/* What an order asks for. */
#define TEALSETTLE_ERASE 1u
#define TEALSETTLE_PROGRAM 2u
#define TEALSETTLE_LOOK 3u

/* The bytes of an erase, and the most of a program or a look. */
#define TEALSETTLE_SEGMENT 4096u
#define TEALSETTLE_PAGE 256u

/* Two numbers of tealsettle_update alone. A run that it abandoned: a function of the driver failed or is missing, or its
 * `progress` ended the run. And a chip whose segment 1 names another update place than the one given: nothing is written. */
#define TEALSETTLE_ABANDONED 100u
#define TEALSETTLE_OTHER_PLACE 101u

/* refusals: the numbers of refusals and stops, by name; written by docs/refusals.py */
enum {
    TEALSETTLE_REFUSED_BAD_CHIP_LENGTH = 1,
    TEALSETTLE_REFUSED_BAD_UPDATE_PLACE = 2,
    TEALSETTLE_REFUSED_BAD_UPDATE_LENGTH = 3,
    TEALSETTLE_REFUSED_BAD_IMAGE_LENGTH = 4,
    TEALSETTLE_REFUSED_IMAGE_FAULT = 5,
    TEALSETTLE_REFUSED_IMAGE_JUMPS = 6,
    TEALSETTLE_REFUSED_BAD_STATE = 7,
    TEALSETTLE_REFUSED_RUN_ENDED = 8,
    TEALSETTLE_REFUSED_BAD_REPLY = 9,
    TEALSETTLE_STOPPED_SWITCH_NOT_ERASED = 10,
    TEALSETTLE_STOPPED_UPDATE_DIFFERS = 11,
    TEALSETTLE_STOPPED_SWITCH_NOT_ON = 12,
    TEALSETTLE_REFUSED_BAD_DAMAGE = 13,
    TEALSETTLE_REFUSED_BAD_LINE = 14,
    TEALSETTLE_REFUSED_BAD_SUM = 15,
    TEALSETTLE_REFUSED_BAD_RECORD = 16,
    TEALSETTLE_REFUSED_BAD_ADDRESS = 17,
    TEALSETTLE_REFUSED_BAD_END = 18,
    TEALSETTLE_REFUSED_NO_ROOM = 19,
    TEALSETTLE_REFUSED_BAD_HEAVIEST_LENGTH = 29,
};
/* end of refusals */

/* words: from docs/REFUSALS.md, written by docs/refusals.py */
/* The words of a refusal or a stop: what `number` of any answer means, in a few words. Never null: 0 and numbers that
 * are none have words too. */
TEALSETTLE_MUST_USE
static inline const char *tealsettle_refusal_words(uint32_t number)
{
    switch (number) {
    case 0:
        return "neither refused nor stopped";
    case TEALSETTLE_REFUSED_BAD_CHIP_LENGTH:
        return "the chip's kind is unknown, or its length is not a multiple of 4,096 from 16,384 to 16,777,216";
    case TEALSETTLE_REFUSED_BAD_UPDATE_PLACE:
        return "the update area does not begin at a multiple of 4,096 from 12,288 up to below the chip's end";
    case TEALSETTLE_REFUSED_BAD_UPDATE_LENGTH:
        return "the update area's length is 0 or not a multiple of 4,096, or the area ends after the chip";
    case TEALSETTLE_REFUSED_BAD_IMAGE_LENGTH:
        return "the image is empty, or longer than its area (where there is none: than 16,777,216 bytes)";
    case TEALSETTLE_REFUSED_IMAGE_FAULT:
        return "the image cannot be loaded by itself: it has a faulty word, or its bytes run out";
    case TEALSETTLE_REFUSED_IMAGE_JUMPS:
        return "the image jumps elsewhere on the chip (IPROG)";
    case TEALSETTLE_REFUSED_BAD_STATE:
        return "the chip's kind is unknown, or the run's state is none that a run with this image can have";
    case TEALSETTLE_REFUSED_RUN_ENDED:
        return "the run has ended already";
    case TEALSETTLE_REFUSED_BAD_REPLY:
        return "the reply is not of the kind or length that the order asks for";
    case TEALSETTLE_STOPPED_SWITCH_NOT_ERASED:
        return "the switch segment did not read back as erased";
    case TEALSETTLE_STOPPED_UPDATE_DIFFERS:
        return "the update area did not read back as the image, then FF";
    case TEALSETTLE_STOPPED_SWITCH_NOT_ON:
        return "the switch word did not read back as ON";
    case TEALSETTLE_REFUSED_BAD_DAMAGE:
        return "the damage bytes are too few for the order, or in segment 0 a bit is neither old nor as ordered";
    case TEALSETTLE_REFUSED_BAD_LINE:
        return "the line is not a colon, as many capital hexadecimal pairs as its count says, and LF or CR LF";
    case TEALSETTLE_REFUSED_BAD_SUM:
        return "the line's checksum is wrong: its pairs do not add to 0 modulo 256";
    case TEALSETTLE_REFUSED_BAD_RECORD:
        return "the line's type is not 00, 01 or 04, or its count or address is not one that its type has";
    case TEALSETTLE_REFUSED_BAD_ADDRESS:
        return "the line's data leave a gap, go back, or go past a multiple of 65,536";
    case TEALSETTLE_REFUSED_BAD_END:
        return "the end record is missing, or something follows it";
    case TEALSETTLE_REFUSED_NO_ROOM:
        return "what is to be written does not fit into the memory that is given for it";
    case TEALSETTLE_REFUSED_BAD_HEAVIEST_LENGTH:
        return "no image of this length can be accepted: one has 12 to 16,777,216 bytes";
    case TEALSETTLE_ABANDONED:
        return "the run was abandoned: a function of the flash's driver failed or is missing, or ended it";
    case TEALSETTLE_OTHER_PLACE:
        return "segment 1 of the chip does not name the update place that was given: nothing is written";
    default:
        return "no refusal or stop has this number";
    }
}
/* end of words */

/* ---- Image files ---- */

/* The forms that a file with an image has. */
#define TEALSETTLE_TEXT 1u   /* MCS text */
#define TEALSETTLE_BIT 2u    /* a BIT file, with the image inside it */
#define TEALSETTLE_BINARY 3u /* the image itself */

/* What a file with an image is. */
typedef struct {
    uint32_t number; /* 0, or 5 */
    size_t place;    /* of the refusal: the field of a BIT file that is not the one to come there, whole */
    uint32_t form;   /* TEALSETTLE_TEXT, TEALSETTLE_BIT or TEALSETTLE_BINARY; 0 for a refusal */
    size_t first;    /* of a BIT file: the place of the image's first byte, */
    size_t length;   /* and how many bytes the image has; they are all in the file */
} TealsettleForm;

/* Tells a file's form by its bytes. A file that begins with the 13 bytes of BIT files is one; any other is text if it has
 * no byte above 7F. A sync word has, so no image that loads anything is taken for text; and every text that
 * tealsettle_mcs_read reads is told as text. */
TEALSETTLE_MUST_USE
TealsettleForm tealsettle_file_form(const uint8_t *file, size_t file_length);

/* What reading MCS text came to. */
typedef struct {
    uint32_t number; /* 0, or 14 to 19 */
    size_t place;    /* of the refusal: a byte of the text */
    size_t length;   /* how many bytes of the image stand at the front of `out` */
} TealsettleRead;

/* Reads MCS text (Intel hexadecimal records of types 00, 01 and 04) into `out`. Bytes of `out` after the
 * image stay as they were. An image has fewer bytes than half its text, so a buffer of half the
 * text's length is always large enough. */
TEALSETTLE_MUST_USE
TealsettleRead tealsettle_mcs_read(const uint8_t *text, size_t text_length, uint8_t *out, size_t out_length);

/* The MCS text of an image. */
typedef struct {
    uint32_t number; /* 0, or 4; of tealsettle_mcs_write also 19 */
    size_t place;    /* 0 */
    size_t length;   /* of the text, in bytes */
} TealsettleText;

/* How long the text is that tealsettle_mcs_write gives for an image of so many bytes. An image has 1 to 16,777,216, and its
 * text at most 46,141,452; any other length gets 4. */
TEALSETTLE_MUST_USE
TealsettleText tealsettle_mcs_length(size_t image_length);

/* Writes an image as MCS text to the front of `out`. Bytes of `out` after the text stay as they were. For each image there is one
 * such text: records of 16 bytes, the last of which may be shorter; before the data at each multiple of 65,536, the first at 0, a
 * record of type 04; the end record; capital digits, and LF after each record. tealsettle_mcs_read gives the image back. Ask
 * tealsettle_mcs_length first, and lend so many bytes. Any bytes are an image here: whether they load is what
 * tealsettle_image_check says. */
TEALSETTLE_MUST_USE
TealsettleText tealsettle_mcs_write(const uint8_t *image, size_t image_length, uint8_t *out, size_t out_length);

/* Whether a text is one that tealsettle_mcs_write gives for some image: 1; or 0, for all other bytes, also where they are MCS
 * text in another form. tealsettle_mcs_read says whether they are MCS text at all. */
TEALSETTLE_MUST_USE
uint32_t tealsettle_mcs_form(const uint8_t *text, size_t text_length);

/* ---- What loads ----
 *
 * A write header must name a register that the FPGA's guide lists: 0 to 14, 16, 17, 22, 24 or 31. Any other is a fault at the
 * header, whatever its count: a chip is stuck there, and an image refused with 5. Bitstreams that Vivado writes for 7 Series
 * write register 19, and are refused for it: README.md. */

/* What a chip loads. */
typedef struct {
    uint32_t number; /* 0, also for a chip that is STUCK: whether it loads is what tealsettle_loads says; or 1 */
    size_t place;    /* of a chip that is stuck: the faulty word, or the chip's length where bytes ran out */
    uint32_t stuck;  /* 1: the chip loads nothing, and the fields below are 0 */
    uint32_t jumped; /* 0: without a jump (the golden image); 1: after one (an update image) */
    size_t sync;     /* place of the last sync word found */
    size_t end;      /* place after the last word */
    size_t writes;   /* how many writes, those since the jump if there was one */
} TealsettleBoot;

/* What the FPGA loads from a chip of these bytes. */
TEALSETTLE_MUST_USE
TealsettleBoot tealsettle_boot(uint32_t kind, const uint8_t *chip, size_t chip_length);

/* Whether the chip loads an image: 1; or 0, where it is stuck or was refused. */
TEALSETTLE_MUST_USE
static inline int tealsettle_loads(TealsettleBoot boot)
{
    return boot.number == 0 && !boot.stuck;
}

/* One write to a configuration register. */
typedef struct {
    uint32_t number;          /* 0, or 1 */
    size_t place;             /* 0 */
    uint32_t found;           /* 1; or 0: there is no such write, and the fields below are 0 */
    uint32_t register_number; /* of the register written: 0 to 14, 16, 17, 22, 24 or 31 */
    uint32_t word;            /* the word written */
    size_t word_place;        /* where on the chip the word stands */
} TealsettleWrite;

/* The write of index i, counted from 0, of what tealsettle_boot counts. A chip that is stuck has none. */
TEALSETTLE_MUST_USE
TealsettleWrite tealsettle_write(uint32_t kind, const uint8_t *chip, size_t chip_length, size_t i);

/* What an image loads by itself. */
typedef struct {
    uint32_t number; /* 0, or 1 (the kind), 4, 5 or 6 */
    size_t place;    /* of the refusal */
    size_t sync;     /* place of the sync word */
    size_t end;      /* place after the last word */
    size_t writes;   /* how many writes */
} TealsettleImage;

/* Whether an image is one that a chip can be given: it reads by itself to its end and does not jump. */
TEALSETTLE_MUST_USE
TealsettleImage tealsettle_image_check(uint32_t kind, const uint8_t *image, size_t image_length);

/* The writes one after the other, in one pass:
 *
 *     TealsettleListing list = tealsettle_writes(TEALSETTLE_SPI, chip, chip_length);
 *     TealsettleStep step = tealsettle_list_next(TEALSETTLE_SPI, list.cursor, chip, chip_length);
 *     for (; step.found; step = tealsettle_list_next(TEALSETTLE_SPI, step.cursor, chip, chip_length))
 *         ... step.register_number, step.word, step.word_place ...
 *
 * The k-th step says what tealsettle_write answers for k, and after the last write none is found. A list that is
 * refused has a cursor of zeros, which finds nothing: so `list.number` may also be asked after the loop. */

/* A place among the writes. The caller keeps it, and hands it back with the bytes that it was opened on, unaltered.
 * Other numbers and other bytes get an answer too, but no promise about a chip rests on it. */
typedef struct {
    size_t at;                /* place of the next word */
    uint32_t register_number; /* of the packet that the word is in */
    size_t left;              /* how many data words are left in that packet */
    size_t remaining;         /* how many writes are still to come */
} TealsettleCursor;

/* A cursor as tealsettle_next_write takes it: its numbers, in their order. Give it a variable, since it is written out four
 * times; or call tealsettle_list_next, which takes the cursor itself. */
#define TEALSETTLE_CURSOR(c) (c).at, (c).register_number, (c).left, (c).remaining

/* Where a list of writes begins. */
typedef struct {
    uint32_t number;         /* 0, or 1; of an image also 4, 5 or 6 */
    size_t place;            /* of the refusal */
    TealsettleCursor cursor; /* before the first write; of a chip that is stuck all 0 */
} TealsettleListing;

/* A cursor before the first write of what tealsettle_boot counts. A chip that is stuck has none. */
TEALSETTLE_MUST_USE
TealsettleListing tealsettle_writes(uint32_t kind, const uint8_t *chip, size_t chip_length);

/* A cursor before the first write of an image by itself, as tealsettle_image_check counts them. */
TEALSETTLE_MUST_USE
TealsettleListing tealsettle_image_writes(uint32_t kind, const uint8_t *image, size_t image_length);

/* The next write of a list. */
typedef struct {
    uint32_t number;          /* 0, or 1 (the kind) */
    size_t place;             /* 0 */
    uint32_t found;           /* 1; or 0: no write is left, and the fields below are 0, the cursor's too */
    uint32_t register_number; /* of the register written; for a cursor that was opened here one of the same */
    uint32_t word;            /* the word written */
    size_t word_place;        /* where in the bytes the word stands */
    TealsettleCursor cursor;  /* after this write */
} TealsettleStep;

/* A cursor's next write, and the cursor after it. `bytes` are the chip or the image that it was opened on. */
TEALSETTLE_MUST_USE
TealsettleStep tealsettle_next_write(uint32_t kind, size_t at, uint32_t register_number, size_t left, size_t remaining,
                                     const uint8_t *bytes, size_t bytes_length);

/* The same, of a cursor as it is. */
TEALSETTLE_MUST_USE
static inline TealsettleStep tealsettle_list_next(uint32_t kind, TealsettleCursor cursor, const uint8_t *bytes,
                                                  size_t bytes_length)
{
    return tealsettle_next_write(kind, TEALSETTLE_CURSOR(cursor), bytes, bytes_length);
}

/* What writing a report came to. */
typedef struct {
    uint32_t number; /* 0, or 1 or 19 */
    size_t place;    /* 0 */
    size_t length;   /* how many bytes of text stand at the front of `out` */
} TealsettleReport;

/* Room for every report of a chip with so many writes, as tealsettle_boot counts them. */
#define TEALSETTLE_REPORT_ROOM(writes) (27 * (size_t)(writes) + 64)

/* The boot report of a chip, as `bootreport` prints it: what loads, a line for each write, and the end; or where the
 * chip is stuck. Lines end in LF, and no byte 0 follows. Bytes of `out` after the report stay as they were. */
TEALSETTLE_MUST_USE
TealsettleReport tealsettle_report(uint32_t kind, const uint8_t *chip, size_t chip_length, uint8_t *out,
                                   size_t out_length);

/* ---- A printer's first chip ---- */

/* Whether a chip was built. */
typedef struct {
    uint32_t number; /* 0, or 1 to 6 or 19 */
    size_t place;    /* of the refusal */
} TealsettleBuild;

/* Builds a chip with a golden image: `length` bytes at the front of `out`, whose other bytes stay as they
 * were. It loads the golden image, whole, without a jump. */
TEALSETTLE_MUST_USE
TealsettleBuild tealsettle_build(uint32_t kind, size_t length, size_t update, size_t area, const uint8_t *golden,
                                 size_t golden_length, uint8_t *out, size_t out_length);

/* Whether a chip's switch is ON. */
typedef struct {
    uint32_t number; /* 0, or 1 */
    size_t place;    /* 0 */
    uint32_t on;     /* 1: the switch word is ON; 0: it is any other word, OFF */
} TealsettleSwitch;

/* The switch of a chip, by its word at 4,092. On a chip that tealsettle_build made, OFF loads the golden image, and ON the
 * update of the last run that ordered the switch on, however many power cuts came between; what any chip loads is what
 * tealsettle_boot says. */
TEALSETTLE_MUST_USE
TealsettleSwitch tealsettle_switch(uint32_t kind, const uint8_t *chip, size_t chip_length);

/* Where a chip says that its update area begins. */
typedef struct {
    uint32_t number; /* 0, or 1 */
    size_t place;    /* 0 */
    uint32_t found;  /* 1; or 0: segment 1 does not begin with the words that name a place */
    size_t update;   /* U */
} TealsettlePlace;

/* The update place that segment 1 of a chip names: on a chip that tealsettle_build made it is the one that it was built
 * with, after every run and every cut. */
TEALSETTLE_MUST_USE
TealsettlePlace tealsettle_update_place(uint32_t kind, const uint8_t *chip, size_t chip_length);

/* ---- A run: updating a chip ----
 *
 * tealsettle_update, at the end of this part, does all of it over a host's own functions for its flash. What it does is this
 * loop, which a host that needs more may write itself:
 *
 *     TealsettleStart start = tealsettle_start(TEALSETTLE_SPI, length, update, area, image, image_length);
 *     TealsettleState state = start.state;
 *     uint32_t number = start.number;
 *     while (number == 0 && !tealsettle_run_finished(TEALSETTLE_SPI, state).ended) {
 *         TealsettleOrder order = tealsettle_run_order(TEALSETTLE_SPI, state, image, image_length);
 *         ... carry it out, once: erase, program, or read into `seen` ...
 *         TealsettleReply reply = order.operation == TEALSETTLE_LOOK
 *             ? tealsettle_run_read(TEALSETTLE_SPI, state, image, image_length, seen, seen_length)
 *             : tealsettle_run_done(TEALSETTLE_SPI, state, image, image_length);
 *         number = reply.number;
 *         state = reply.state;
 *     }
 *
 * It ends with number 0: the image is written, read back and switched on, and the printer loads it, also where the
 * chip said done to an order that it did not carry out; or it ends with the number of a refusal or a stop.
 *
 * The state is all that a run is, and the caller keeps it, in memory only. After a power cut it is lost, the printer
 * loads a whole image all the same, and an update begins again with a start, which may come at any time.
 *
 * What the guarantee asks of the host:
 *   - every run of a chip is started with the length and the update place that the chip was built with;
 *   - the image is lent again at each order and each reply, and is the one that the run was started with,
 *     unaltered: so what a look must find is always the image's own bytes;
 *   - each order is carried out once, and each reply is given the state handed back last. A refused reply changes
 *     nothing, and the order is not carried out again;
 *   - what a look reads is what stands on the chip, and nobody else writes the chip.
 * And of the chip: bytes change only under an erase or program and within its span, and in segment 0 each bit ends
 * old or as ordered. In the update area a failed or cut order may leave anything.
 *
 * Where the driver itself fails (a time-out, write protection, a bus error, a short read), the run is abandoned: no reply
 * is given, the state is dropped, and the order is NOT tried again. The update then begins anew, with a start. That is safe
 * at every order: an abandoned run is nothing else than one whose power was cut there. What the failed order may have left
 * in its span, as said above, the guarantee covers, and the next run first switches the update off, then writes all of it
 * again. A second try is outside of what is proved, since each order is carried out once, and nothing is gained by it. Nor
 * may a failed read be answered with bytes that were not read: the look would then agree with what nobody has seen.
 *
 * Before the next start the failed order must be over: a flash that is still busy with it is idle again, or was switched off
 * and on; and where orders go over a link, it is sure that the printer's controller will not carry it out any more, nor any
 * order twice (number the orders, or reset the controller). */

/* Where a run is. */
typedef struct {
    size_t length;       /* the layout: F, */
    size_t update;       /* U */
    size_t area;         /* and A */
    size_t image_length; /* the image's length */
    uint32_t phase;      /* 0 to 6; 7: ended */
    size_t index;        /* of the order in its phase; 0 in phase 7 */
    uint32_t outcome;    /* 0; in phase 7 after a stop its number, 10 to 12 */
} TealsettleState;

/* A state as the calls on numbers take it, in their order. Give it a variable, since it is written out seven times. The
 * functions tealsettle_run_... take the state itself, so that no two of its numbers can be exchanged: prefer them. */
#define TEALSETTLE_STATE(s) \
    (s).length, (s).update, (s).area, (s).image_length, (s).phase, (s).index, (s).outcome

/* What starting a run came to. */
typedef struct {
    uint32_t number;       /* 0, or 1 to 6 */
    size_t place;          /* of the refusal */
    TealsettleState state; /* the first one: phase 0, index 0, outcome 0 */
} TealsettleStart;

/* Starts a run with an image. It writes nothing: the chip is not touched before the first order. */
TEALSETTLE_MUST_USE
TealsettleStart tealsettle_start(uint32_t kind, size_t length, size_t update, size_t area, const uint8_t *image,
                                 size_t image_length);

/* The length of a run. */
typedef struct {
    uint32_t number; /* 0, or 1 to 4 */
    size_t place;    /* 0 */
    size_t orders;   /* how many there are in all */
} TealsettleTotal;

/* How many orders an uncut run has, with an image of so many bytes. */
TEALSETTLE_MUST_USE
TealsettleTotal tealsettle_total(uint32_t kind, size_t length, size_t update, size_t area, size_t image_length);

/* How far a run is. */
typedef struct {
    uint32_t number; /* 0, or 7 or 8 */
    size_t place;    /* 0 */
    size_t order;    /* the number of the state's order in its run, counted from 1 */
    size_t orders;   /* how many there are in all */
} TealsettleProgress;

/* The number of the order that a state asks for, as in "order 18 of 88". A run that has ended asks for none: 8. No image is
 * lent. */
TEALSETTLE_MUST_USE
TealsettleProgress tealsettle_progress(uint32_t kind, size_t length, size_t update, size_t area, size_t image_length,
                                       uint32_t phase, size_t index, uint32_t outcome);

/* What is to be done with the chip: erase the segment of `length` bytes from `address` on, program as many
 * with the front of `bytes`, or read as many. A program stays inside one page of 256 bytes. */
typedef struct {
    uint32_t number;    /* 0, or 7 or 8 */
    size_t place;       /* 0 */
    uint32_t operation; /* TEALSETTLE_ERASE, TEALSETTLE_PROGRAM or TEALSETTLE_LOOK; 0 for a refusal */
    size_t address;     /* on the chip */
    size_t length;      /* 4,096 for an erase, 1 to 256 for a program, 256 or 4 for a look */
    uint8_t bytes[256]; /* those to program, then FF; all FF where nothing is programmed */
} TealsettleOrder;

/* The order that a state asks for. `state_image_length` is the state's own, and `image_length` that of the
 * image lent: the state fits only if they are equal. */
TEALSETTLE_MUST_USE
TealsettleOrder tealsettle_order(uint32_t kind, size_t length, size_t update, size_t area, size_t state_image_length,
                                 uint32_t phase, size_t index, uint32_t outcome, const uint8_t *image,
                                 size_t image_length);

/* What a reply came to. */
typedef struct {
    uint32_t number;       /* 0; or refused, 7 to 9; or stopped, 10 to 12 */
    size_t place;          /* of a stop: the first address that differs */
    uint32_t stopped;      /* 1 after a stop */
    TealsettleState state; /* the next one; after a stop phase 7; after a refusal the one that was given */
} TealsettleReply;

/* The reply to the order of a state: `reply_kind` is TEALSETTLE_DONE, with a length of 0, after an erase or
 * program, and TEALSETTLE_READ, with the bytes that the chip read, after a look. */
TEALSETTLE_MUST_USE
TealsettleReply tealsettle_reply(uint32_t kind, size_t length, size_t update, size_t area, size_t state_image_length,
                                 uint32_t phase, size_t index, uint32_t outcome, const uint8_t *image,
                                 size_t image_length, uint32_t reply_kind, const uint8_t *bytes, size_t bytes_length);

/* Whether a run goes on. */
typedef struct {
    uint32_t number;  /* 0, or 7 */
    size_t place;     /* 0 */
    uint32_t ended;   /* 0: the state asks for an order; 1: the run has ended */
    uint32_t outcome; /* of a run that has ended: 0, or 10 to 12 after a stop */
} TealsettleFinished;

/* Whether a run has ended, and how. No image is lent. */
TEALSETTLE_MUST_USE
TealsettleFinished tealsettle_finished(uint32_t kind, size_t length, size_t update, size_t area, size_t image_length,
                                       uint32_t phase, size_t index, uint32_t outcome);

/* The same calls on a whole state. The reply is two functions: one for done, and one for the bytes read. */

TEALSETTLE_MUST_USE
static inline TealsettleOrder tealsettle_run_order(uint32_t kind, TealsettleState state, const uint8_t *image,
                                                   size_t image_length)
{
    return tealsettle_order(kind, TEALSETTLE_STATE(state), image, image_length);
}

/* The order was an erase or a program, and is done. */
TEALSETTLE_MUST_USE
static inline TealsettleReply tealsettle_run_done(uint32_t kind, TealsettleState state, const uint8_t *image,
                                                  size_t image_length)
{
    return tealsettle_reply(kind, TEALSETTLE_STATE(state), image, image_length, TEALSETTLE_DONE, NULL, 0);
}

/* The order was a look, and these are the bytes that the chip read. */
TEALSETTLE_MUST_USE
static inline TealsettleReply tealsettle_run_read(uint32_t kind, TealsettleState state, const uint8_t *image,
                                                  size_t image_length, const uint8_t *bytes, size_t bytes_length)
{
    return tealsettle_reply(kind, TEALSETTLE_STATE(state), image, image_length, TEALSETTLE_READ, bytes, bytes_length);
}

TEALSETTLE_MUST_USE
static inline TealsettleFinished tealsettle_run_finished(uint32_t kind, TealsettleState state)
{
    return tealsettle_finished(kind, TEALSETTLE_STATE(state));
}

TEALSETTLE_MUST_USE
static inline TealsettleProgress tealsettle_run_progress(uint32_t kind, TealsettleState state)
{
    return tealsettle_progress(kind, TEALSETTLE_STATE(state));
}

/* ---- A whole update over a flash's driver ---- */

/* The order that is carried out next. */
typedef struct {
    size_t order;       /* its number in the run, counted from 1, */
    size_t orders;      /* of so many */
    uint32_t phase;     /* 0 to 6: erase segment 0, look at it, erase the update area, program the image, look at the area,
                         * program the switch word, look at it */
    uint32_t operation; /* TEALSETTLE_ERASE, TEALSETTLE_PROGRAM or TEALSETTLE_LOOK */
    size_t address;     /* on the chip */
    size_t length;
} TealsettleAhead;

/* A printer's flash: the chip's kind and layout, and the functions of its driver, each of which is given `context`. They
 * return when the flash is no longer busy, try nothing twice, and say how it went: any answer but the one for success
 * abandons the run, and is handed on in TealsettleUpdate. They do not throw. */
typedef struct {
    uint32_t kind;               /* TEALSETTLE_SPI */
    size_t length, update, area; /* F, U and A: F and U are those that the chip was built with */
    void *context;
    /* Sets one segment to FF: `length` is 4,096, and `address` a multiple of it. Answers 0 for done. */
    int (*erase)(void *context, size_t address, size_t length);
    /* Clears those bits that are 0 in `bytes`: 1 to 256 of them, inside one page of 256. Answers 0 for done. */
    int (*program)(void *context, size_t address, const uint8_t *bytes, size_t length);
    /* Reads 1 to 256 bytes, from the chip itself and not from a cache. Answers how many it has read: `length` for success,
     * and NOT 0. Fewer is a short read, and abandons the run. */
    int (*read)(void *context, size_t address, uint8_t *bytes, size_t length);
    /* Is told of each order before it is carried out. Answers 0 to go on; else the run is abandoned there. May be null. */
    int (*progress)(void *context, const TealsettleAhead *ahead);
} TealsettleFlash;

/* What an update came to. */
typedef struct {
    uint32_t number; /* 0: the image is written, read back and switched on, and the chip loads it; or 1 to 6: refused; or 10 to
                      * 12: stopped; or TEALSETTLE_ABANDONED or TEALSETTLE_OTHER_PLACE */
    size_t place;    /* of the refusal or stop; of a run that was abandoned, where on the chip; 4,096 for another place */
    int driver;      /* of a run that was abandoned: what the driver's function answered; 0 where one is missing */
    size_t order;    /* the number of the order that was the last, counted from 1; 0: none was begun, and the chip is as it
                      * was */
    size_t orders;   /* how many the run has; 0 where none was begun */
} TealsettleUpdate;

/* Updates a chip: a run from its start to its end. After a stop, and after a run that was abandoned, call it again, with the
 * same image or another. In between the chip loads, whole, its golden image or the update of the last run that came to order
 * the switch on. What the guarantee asks of a host and a chip is said above, where a run is.
 *
 * Before its first order it reads the beginning of segment 1 (256 bytes at 4,096) and goes on only if that names the update
 * place of `flash`, as on every chip that tealsettle_build made: an update that is written elsewhere would not load, and could
 * erase the golden image. */
TEALSETTLE_MUST_USE
TealsettleUpdate tealsettle_update(const TealsettleFlash *flash, const uint8_t *image, size_t image_length);

/* ---- The bench: a run on a chip's bytes ---- */

/* What a cut run came to. */
typedef struct {
    uint32_t number;       /* 0, or 1 to 6 or 13 */
    size_t place;          /* of the refusal */
    TealsettleState state; /* before the cut order; or phase 7 and outcome 0, where the run ends before the cut */
} TealsettleBench;

/* A run on the bytes of a chip, whose power is cut in the order after the first `k`. Those are obeyed in full;
 * if the next is an erase or program, its span then holds the first damage bytes, and a look changes
 * nothing. With `k` at or above the total the run ends. F is the chip's length. */
TEALSETTLE_MUST_USE
TealsettleBench tealsettle_cut_run(uint32_t kind, uint8_t *chip, size_t chip_length, size_t update, size_t area,
                                   const uint8_t *image, size_t image_length, size_t k, const uint8_t *damage,
                                   size_t damage_length);

/* ---- For the quality file: what a power cut can leave of a switch word ----
 *
 * Every word that the chip can hold at 4,092 afterwards is counted, each one time, the old word and the finished one among
 * them: each bit ends old, or as a chip that obeys would hold it. An order that the chip calls done, and that it did not carry
 * out in full, can leave the same words. These calls have no refusal. A word is a number, its high byte first on the chip: ON
 * is 0xAA995566. */

typedef struct {
    uint64_t words; /* how many: 1 to 4,294,967,296 */
    uint64_t on;    /* how many of them are ON on an SPI chip: 1 or 0 */
} TealsettleCounts;

/* After a program of `ordered_word` over `old_word`. It can only clear bits: where it orders a 1 over an old 0, that bit
 * remains 0. From erased (0xFFFFFFFF) to ON it can leave 65,536 words, one of them ON. */
TEALSETTLE_MUST_USE
TealsettleCounts tealsettle_after_program(uint32_t old_word, uint32_t ordered_word);

/* After an erase of the switch segment, with `old_word` in it. It can only set bits. From ON it can leave 65,536 words, one of
 * them ON; from 0 all 4,294,967,296; from erased only that one. */
TEALSETTLE_MUST_USE
TealsettleCounts tealsettle_after_erase(uint32_t old_word);

/* ---- For the test rack: the image with most writes ----
 *
 * Of w words, n/4 rounded down, an accepted image of n bytes can have w - 2 as writes up to w = 2,049, and w - 3 beyond: the
 * others are the sync word and one header, or two. No image that tealsettle_image_check accepts has more for its length, nor does
 * tealsettle_boot count more on a chip of n bytes. */

typedef struct {
    uint32_t number; /* 0, or 29; of tealsettle_heaviest_image also 19 */
    size_t place;    /* 0 */
    size_t writes;   /* how many: 1 to 4,194,301 */
} TealsettleMost;

/* The greatest number of writes that an accepted image of n bytes can have. n is 12 to 16,777,216; any other gets 29. */
TEALSETTLE_MUST_USE
TealsettleMost tealsettle_most_writes(size_t n);

/* Such an image: n bytes at the front of `out`, and those after them stay as they were. It is the sync word, one packet of CMD
 * whose words are 0 (no command) up to the last, which is DESYNC, and FF after the last whole word. tealsettle_image_check
 * accepts it with as many writes as are told here. */
TEALSETTLE_MUST_USE
TealsettleMost tealsettle_heaviest_image(size_t n, uint8_t *out, size_t out_length);

#ifdef __cplusplus
}
#endif

#endif
