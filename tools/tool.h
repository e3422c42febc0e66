/* What the files of the tool share. A command is a file of its own: it reads files, asks the library, and says or writes
 * what that answered. */
#ifndef TOOL_H
#define TOOL_H

#include "../include/tealsettle.h"

#include <stdbool.h>
#include <stdio.h>
#include <sys/types.h>

/* Exit statuses. */
enum {
    DONE = 0,
    ANSWER_NO = 1, /* a chip that is stuck, a refusal, a stop */
    TROUBLE = 2,   /* wrong use, or a file that cannot be read or written */
};

/* The longest chip; and the longest file that is read: room for the MCS text of an image as long, a record for each byte. */
#define LONGEST_CHIP ((size_t)16 << 20)
#define LONGEST_FILE ((size_t)256 << 20)

/* A file's bytes in memory, and its name for messages. */
typedef struct {
    const char *name;
    uint8_t *bytes; /* never null */
    size_t length;
} File;

/* ---- arguments.c: a command line ---- */

/* A number that an option may give. */
typedef struct {
    bool given;
    size_t value;
} Number;

enum { MOST_FILES = 3, MOST_WORDS = 2 };

typedef struct {
    Number length, update, area, orders; /* -F, -U, -A, -k */
    bool writes, plain;                  /* -w, -b */
    const char *output;                  /* -o; or null */
    const char *files[MOST_FILES];       /* in the order of the usage line, */
    Number words[MOST_WORDS];            /* and so are switch words, or numbers */
} Arguments;

typedef struct {
    const char *name;
    const char *usage;   /* its options and files, as they are typed */
    const char *purpose; /* in a line */
    const char *help;    /* the rest of what --help says */
    const char *options; /* the letters of its options, */
    const char *needed;  /* and of those that must be given */
    int files;           /* how many file names it takes; */
    int words;           /* or how many switch words, */
    int optional;        /* of which this many, the last, may be left out; */
    bool numbers;        /* or the words are numbers */
    int (*run)(const Arguments *);
} Command;

/* The arguments of a command: the words after its name. Wrong ones, and --help, end the program. */
Arguments read_arguments(const Command *command, char **words);

/* ---- messages.c: what is said on standard error ---- */

/* Says what is wrong with what, and ends with TROUBLE. */
_Noreturn void trouble(const char *what, const char *why);

/* The same, in the system's words for errno. */
_Noreturn void system_trouble(const char *what);

/* The memory asked for: where there is none, the program ends. */
void *held(void *memory);

/* Two strings as one. */
char *joined(const char *first, const char *second);

/* These say why the answer is no, and give the status for it: a refusal in words alone; one with its number and place, in
 * words of its own or in the number's; one of MCS text, with the line and column of its place. */
int refused_in_words(const char *what, const char *why);
int refused_because(const char *what, uint32_t number, size_t place, const char *why);
int refused(const char *what, uint32_t number, size_t place);
int refused_text(const File *text, uint32_t number, size_t place);

/* Says that a run has stopped. */
int stopped(const char *what, uint32_t number, size_t place);

/* ---- files.c: whole files ---- */

/* Before anything is opened: no file is to get the descriptor of a standard stream that is closed, or what is said on that
 * stream would be written into the file. */
void prepare_files(void);

/* All of a file, of standard input for `-`, or of an open file. If it is longer than `most`, one byte more than that. */
File read_file(const char *name, size_t most);
File read_descriptor(int descriptor, const char *name, size_t most);

/* Adds what a write took to `done`: fewer bytes than it was given, or none where it was interrupted. False for an error, and
 * for a write that takes nothing, which would be tried for ever. */
bool write_took(ssize_t count, size_t *done);

/* All that was written is on the disk; or false. */
bool flushed(int descriptor);

/* Whether two files are one, whatever their names. */
struct stat;
bool is_same_file(const struct stat *one, const struct stat *other);

/* Whether a name after -o is that of standard output: `-`, or another name of the same file. */
bool is_standard_output(const char *name);

/* A file that is read is not to be written: else the program ends. */
void check_not_read(const char *input, const char *output);

/* Replaces a file, whole or not at all: beside it, and then in its place. It must not be in a run, nor write-protected. */
void replace_file(const char *name, const uint8_t *bytes, size_t length);

/* Writes a file so, a new one or in the place of another; or standard output, a device or a pipe as they are. A terminal gets no
 * bytes, but text. */
void write_file(const char *name, const uint8_t *bytes, size_t length);
void write_text(const char *name, const uint8_t *text, size_t length);

/* The status to end with: TROUBLE if standard output has not taken all that was printed. */
int end_output(int status);

/* ---- images.c: images in the forms that other tools write ---- */

/* The image in a file: MCS text, a BIT file or the image itself, told by the file's bytes. DONE; or a refusal, which has
 * been said. */
int read_image(const char *name, File *image);

/* The same of MCS text or a BIT file. All else is refused as text. */
int read_packed_image(const char *name, File *image);

/* The same for a command that does not ask whether the image loads. What begins as a text does, with a colon, is then read as one,
 * damaged or not, and an empty file is an empty image. If it is `plain` (-b), the file's bytes are the image, whatever they are. */
int read_any_image(const char *name, bool plain, File *image);

/* The image of MCS text, and the MCS text of an image. DONE; or a refusal, which has been said. */
int image_of_text(const File *text, File *image);
int text_of_image(const File *image, File *text);

/* The refusal of an image. */
int refused_image(const File *image, uint32_t number, size_t place);

/* ---- registers.c: registers that may not be written ---- */

/* Why an image has a fault at this place, or a chip is stuck there, if that is for the register that a write header names there: in
 * words, which also say if it would load with such registers admitted (of a chip only where no jump lies ahead). Else null. */
const char *register_words(const File *file, size_t place);

/* ---- chips.c: a chip's layout, and what it loads ---- */

/* The place that segment 1 of a chip names. DONE; or a refusal, which has been said. */
int read_update_place(const File *chip, size_t *update);

/* The area's length: -A, or where that is not given, up to the chip's end. */
size_t read_area(const Arguments *arguments, size_t length, size_t update);

/* The refusal of a call on a layout and an image, said of the one that it concerns. */
int refused_run(const char *chip, const File *image, uint32_t number, size_t place);

/* Says in a line what a chip loads. DONE; or ANSWER_NO for a chip that is stuck or refused. */
int say_boot(FILE *to, const File *chip);

/* Says on standard error why a chip is stuck at a place, where that is for a register that may not be written. */
void say_stuck(const File *chip, size_t place);

/* ---- flash.c: a chip's file as its flash ---- */

typedef struct {
    const char *name;
    int descriptor;
    uint32_t phase;  /* of the order that came last */
    const char *why; /* it failed in a run; or null */
} Flash;

/* Opens a chip's file to write it, and locks it until the program ends: no other command of ours then writes it. */
Flash open_flash(const char *name);

/* The file is still the one that has the name, or the program ends. */
void check_named(const Flash *flash);

/* All its bytes. */
File read_flash(const Flash *flash);

/* The functions of a driver (TealsettleFlash), whose context is a Flash. Where they fail, `why` says why. */
int flash_read(void *context, size_t address, uint8_t *bytes, size_t length);
int flash_erase(void *context, size_t address, size_t length);
int flash_program(void *context, size_t address, const uint8_t *bytes, size_t length);

/* What has been written is on the disk before anything that is written later: 0; or not, as in a driver's function. */
int flush_flash(Flash *flash);

/* ---- progress.c: how far a run is ---- */

/* What the orders of a phase do. */
const char *phase_words(uint32_t phase);

/* Shows that the order `number` of `total`, of this phase, is to be carried out: a bar with the time left on a terminal, a
 * line for each phase elsewhere. */
void show_progress(uint32_t phase, size_t number, size_t total);

/* Takes the bar away. */
void end_progress(void);

/* ---- The commands ---- */

extern const Command report_command, switch_command, check_command, image_command, mcs_command, is_mcs_command, build_command,
    update_command, cut_command, outcomes_command, heaviest_command;

#endif
