/* Updates a printer's chip, and says what it then loads: a start for a host of your own.
 *
 *     update CHIP IMAGE.mcs
 *
 * CHIP is a file that stands for the flash (`tealsettle build` makes one). The program can be killed at any moment: the chip
 * then loads, whole, its golden image or the update of the last run that ordered the switch on. Nothing is saved to go on
 * from: the next run starts anew, which is right after every cut, and uncut it brings its own image. The exit status is 0;
 * or 1 for a refusal or a stop; or 2 where a file, the flash, the output or the command line is at fault. */
#define _XOPEN_SOURCE 700
#include "../include/tealsettle.h"

#include <errno.h>
#include <fcntl.h>
#include <stdio.h>
#include <stdlib.h>
#include <string.h>
#include <time.h>
#include <unistd.h>

/* The printer's layout. Every run is started with the one that the chip was built with. */
enum { LENGTH = 32768, UPDATE = 16384, AREA = 16384 };

static uint8_t text[4 * AREA + 1], image[2 * AREA]; /* an image has fewer bytes than half its text */

static _Noreturn void fail(const char *what, const char *why)
{
    fprintf(stderr, "update: %s: %s\n", what, why);
    exit(2);
}

/* The chip is as it was. */
static _Noreturn void refuse(uint32_t number, size_t place)
{
    fprintf(stderr, "refused %u at %zu: %s\n", (unsigned)number, place, tealsettle_refusal_words(number));
    exit(1);
}

/* ---- The flash: for a real one, replace these three functions. `context` says which flash, here its file. ---- */

static int flash_read(void *context, size_t address, uint8_t *bytes, size_t length)
{
    const int *chip = context;
    return (int)pread(*chip, bytes, length, (off_t)address);
}

/* Piece by piece and in its time (an erase 45 ms), as in a real flash: so a kill leaves a part of an order. */
static int change(int chip, size_t address, const uint8_t *bytes, size_t length)
{
    const struct timespec pause = {0, 1400000};
    for (size_t done = 0, piece; done < length; done += piece) {
        piece = length - done < 128 ? length - done : 128;
        nanosleep(&pause, NULL);
        if (pwrite(chip, bytes + done, piece, (off_t)(address + done)) != (ssize_t)piece)
            return -1;
    }
    return 0;
}

static int flash_erase(void *context, size_t address, size_t length)
{
    const int *chip = context;
    uint8_t erased[TEALSETTLE_SEGMENT];
    memset(erased, 0xFF, sizeof erased);
    return change(*chip, address, erased, length);
}

static int flash_program(void *context, size_t address, const uint8_t *bytes, size_t length)
{
    const int *chip = context;
    uint8_t page[TEALSETTLE_PAGE];
    if (flash_read(context, address, page, length) != (int)length)
        return -1;
    for (size_t i = 0; i < length; i++)
        page[i] &= bytes[i]; /* a program only clears bits */
    return change(*chip, address, page, length);
}

/* ---- The host ---- */

/* Nobody else may write the chip during a run. It is not opened as 0 to 2: with standard output closed, what is printed would
 * be written into the chip. */
static int open_chip(const char *path)
{
    int opened = open(path, O_RDWR), chip = opened < 0 ? opened : fcntl(opened, F_DUPFD, 3);
    if (chip < 0)
        fail(path, strerror(errno));
    close(opened);
    if (lseek(chip, 0, SEEK_END) != LENGTH)
        fail(path, "it has not the length of the chip");
    if (lseek(chip, 0, SEEK_SET) != 0 || lockf(chip, F_TLOCK, 0) != 0)
        fail(path, "another run is under way");
    return chip;
}

/* The file is read once: the bytes that are checked are those that are written, and those that looks compare. */
static size_t read_image(const char *path)
{
    FILE *file = fopen(path, "rb");
    size_t length = file ? fread(text, 1, sizeof text, file) : 0;
    if (!file || ferror(file))
        fail(path, strerror(errno));
    if (length == sizeof text)
        fail(path, "too long");
    fclose(file);
    TealsettleRead got = tealsettle_mcs_read(text, length, image, sizeof image);
    if (got.number != 0)
        refuse(got.number, got.place);
    return got.length;
}

static int show(void *context, const TealsettleAhead *ahead)
{
    static const char *const names[] = {"nothing", "erase", "program", "look"};
    (void)context;
    fprintf(stderr, "order %zu of %zu: %-7s %5zu %4zu%c", ahead->order, ahead->orders, names[ahead->operation],
            ahead->address, ahead->length, ahead->order < ahead->orders && isatty(STDERR_FILENO) ? '\r' : '\n');
    return 0;
}

static int say_boot(int chip)
{
    static uint8_t bytes[LENGTH];
    if (flash_read(&chip, 0, bytes, LENGTH) != LENGTH)
        fail("the chip", "it cannot be read");
    TealsettleBoot b = tealsettle_boot(TEALSETTLE_SPI, bytes, LENGTH);
    if (tealsettle_loads(b))
        printf("loads %s: sync %zu, end %zu, writes %zu\n", b.jumped ? "update" : "golden", b.sync, b.end, b.writes);
    else
        printf("loads nothing: stuck at %zu\n", b.place);
    if (fflush(stdout) != 0)
        fail("standard output", "the answer cannot be written");
    return !tealsettle_loads(b);
}

/* What a run came to that did not bring its image. */
static int complain(TealsettleUpdate u)
{
    int abandoned = u.number == TEALSETTLE_ABANDONED;
    fprintf(stderr, "%s %u at %zu: %s; run it again, the printer loads a whole image all the same\n",
            abandoned ? "abandoned" : "stopped", (unsigned)u.number, u.place, tealsettle_refusal_words(u.number));
    return abandoned ? 2 : 1;
}

int main(int count, char **words)
{
    if (count != 3)
        fail("usage", "update CHIP IMAGE.mcs");
    size_t length = read_image(words[2]);
    int chip = open_chip(words[1]);
    const TealsettleFlash flash = {
        .kind = TEALSETTLE_SPI, .length = LENGTH, .update = UPDATE, .area = AREA, .context = &chip,
        .erase = flash_erase, .program = flash_program, .read = flash_read, .progress = show,
    };
    TealsettleUpdate u = tealsettle_update(&flash, image, length);
    if (u.number == 0)
        return say_boot(chip);
    if (u.order == 0 && u.number != TEALSETTLE_ABANDONED)
        refuse(u.number, u.place);
    return complain(u);
}
