/* A chip's file as its flash: an erase sets a segment to FF, a program clears bits, a look reads. */
#define _XOPEN_SOURCE 700
#include "tool.h"

#include <errno.h>
#include <fcntl.h>
#include <string.h>
#include <sys/stat.h>
#include <unistd.h>

void check_named(const Flash *flash)
{
    struct stat opened, named;
    if (fstat(flash->descriptor, &opened) != 0 || stat(flash->name, &named) != 0 || !is_same_file(&opened, &named))
        trouble(flash->name, "was replaced or removed meanwhile: run it again");
}

Flash open_flash(const char *name)
{
    struct flock whole = {.l_type = F_WRLCK, .l_whence = SEEK_SET};
    struct stat about;
    if (strcmp(name, "-") == 0)
        trouble("standard input", "is no chip that can be written");
    Flash flash = {.name = name, .descriptor = open(name, O_RDWR | O_CLOEXEC)};
    if (flash.descriptor < 0 || fstat(flash.descriptor, &about) != 0)
        system_trouble(name);
    if (!S_ISREG(about.st_mode))
        trouble(name, "is no file that a chip's bytes are in");
    if (fcntl(flash.descriptor, F_SETLK, &whole) != 0) {
        if (errno == EACCES || errno == EAGAIN)
            trouble(name, "another run is under way");
        system_trouble(name);
    }
    check_named(&flash); /* another may have replaced the file between our open and our lock */
    return flash;
}

File read_flash(const Flash *flash)
{
    if (lseek(flash->descriptor, 0, SEEK_SET) < 0)
        system_trouble(flash->name);
    return read_descriptor(flash->descriptor, flash->name, LONGEST_CHIP);
}

/* The file has failed in the middle of a run: why is said when the run has been abandoned. */
static int failed(Flash *flash, const char *why)
{
    flash->why = why;
    return -1;
}

int flash_read(void *context, size_t address, uint8_t *bytes, size_t length)
{
    Flash *flash = context;
    for (size_t done = 0; done < length;) {
        ssize_t got = pread(flash->descriptor, bytes + done, length - done, (off_t)(address + done));
        if (got < 0 && errno != EINTR)
            return failed(flash, strerror(errno));
        if (got == 0)
            return failed(flash, "has become shorter");
        done += got > 0 ? (size_t)got : 0;
    }
    return (int)length;
}

static int write_at(Flash *flash, size_t address, const uint8_t *bytes, size_t length)
{
    for (size_t done = 0; done < length;)
        if (!write_took(pwrite(flash->descriptor, bytes + done, length - done, (off_t)(address + done)), &done))
            return failed(flash, strerror(errno));
    return 0;
}

int flash_erase(void *context, size_t address, size_t length)
{
    uint8_t erased[TEALSETTLE_SEGMENT];
    memset(erased, 0xFF, sizeof erased);
    return write_at(context, address, erased, length);
}

int flash_program(void *context, size_t address, const uint8_t *bytes, size_t length)
{
    uint8_t page[TEALSETTLE_PAGE];
    if (flash_read(context, address, page, length) != (int)length)
        return -1;
    for (size_t i = 0; i < length; i++)
        page[i] &= bytes[i];
    return write_at(context, address, page, length);
}

int flush_flash(Flash *flash)
{
    return flushed(flash->descriptor) ? 0 : failed(flash, strerror(errno));
}
