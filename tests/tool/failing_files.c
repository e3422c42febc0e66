/* Files that fail, for the tool's test: linked over the calls by which it reads and writes whole files. The call named FAIL
 * fails, or raises SIGNAL if that is given; `write` does so after ROOM bytes, as on a full disk. With SHORT a read or write
 * takes at most so many bytes, and every second one is interrupted. */
#define _XOPEN_SOURCE 700
#include <errno.h>
#include <signal.h>
#include <stdlib.h>
#include <string.h>
#include <sys/types.h>

ssize_t __real_read(int file, void *bytes, size_t length);
ssize_t __real_write(int file, const void *bytes, size_t length);
int __real_fdatasync(int file);
int __real_close(int file);
int __real_rename(const char *from, const char *to);

static size_t calls, written;

static size_t number(const char *name, size_t otherwise)
{
    const char *value = getenv(name);
    return value ? (size_t)atol(value) : otherwise;
}

static int fails(const char *call)
{
    const char *named = getenv("FAIL");
    if (!named || strcmp(named, call) != 0)
        return 0;
    raise((int)number("SIGNAL", 0));
    errno = ENOSPC;
    return 1;
}

/* How much of a read or write is done at once; 0 for one that is interrupted. */
static size_t taken(size_t length)
{
    size_t most = number("SHORT", length);
    errno = EINTR;
    return getenv("SHORT") && ++calls % 2 == 0 ? 0 : length < most ? length : most;
}

ssize_t __wrap_read(int file, void *bytes, size_t length)
{
    length = taken(length);
    return length == 0 ? -1 : __real_read(file, bytes, length);
}

ssize_t __wrap_write(int file, const void *bytes, size_t length)
{
    size_t room = number("ROOM", (size_t)-1) - written;
    length = taken(length);
    if (length == 0 || (room == 0 && fails("write")))
        return -1;
    ssize_t put = __real_write(file, bytes, length < room ? length : room);
    written += put > 0 ? (size_t)put : 0;
    return put;
}

int __wrap_fdatasync(int file)
{
    return fails("fdatasync") ? -1 : __real_fdatasync(file);
}

int __wrap_close(int file)
{
    int closed = __real_close(file);
    return written > 0 && fails("close") ? -1 : closed;
}

int __wrap_rename(const char *from, const char *to)
{
    return fails("rename") ? -1 : __real_rename(from, to);
}
