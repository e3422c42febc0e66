/* A flash that fails, for the tests of the example and of the tool: linked over the calls by which they reach their chip. It
 * takes no time, raises SIGNAL in the call CUT on the chip, after PART bytes if that is a write, gives an error in the call
 * BROKEN, and does nothing in the first write at the address DEAF. With LOSE=1, 2 or 3 the computer fails at a cut too: of the
 * writes that it has not been asked to put on its disk yet, it loses every second, the others, or all. */
#include <errno.h>
#include <signal.h>
#include <stdint.h>
#include <stdlib.h>
#include <sys/types.h>
#include <time.h>

ssize_t __real_pread(int file, void *bytes, size_t length, off_t at);
ssize_t __real_pwrite(int file, const void *bytes, size_t length, off_t at);
int __real_fdatasync(int file);

enum { LONGEST = 4096, MOST = 64 };

static long calls, deaf;

/* What stood where something was written since the last fdatasync. */
static struct {
    off_t at;
    size_t length;
    uint8_t before[LONGEST];
} unsynced[MOST];
static size_t writes;

static long number(const char *name)
{
    const char *value = getenv(name);
    return value ? atol(value) : -1;
}

static void keep_before(int file, size_t length, off_t at)
{
    if (number("LOSE") <= 0)
        return;
    if (writes == MOST || length > LONGEST || __real_pread(file, unsynced[writes].before, length, at) != (ssize_t)length)
        abort();
    unsynced[writes].at = at;
    unsynced[writes++].length = length;
}

static void fail(int file)
{
    for (size_t i = 0; i < writes; i++)
        if (number("LOSE") >> i % 2 & 1 &&
            __real_pwrite(file, unsynced[i].before, unsynced[i].length, unsynced[i].at) != (ssize_t)unsynced[i].length)
            abort();
    raise((int)number("SIGNAL"));
}

int __wrap_nanosleep(const struct timespec *pause, struct timespec *left)
{
    return (void)pause, (void)left, 0;
}

int __wrap_fdatasync(int file)
{
    writes = 0;
    return __real_fdatasync(file);
}

static ssize_t give_error(void)
{
    errno = EIO;
    return -1;
}

ssize_t __wrap_pread(int file, void *bytes, size_t length, off_t at)
{
    calls++;
    if (calls == number("CUT"))
        fail(file);
    return calls == number("BROKEN") ? give_error() : __real_pread(file, bytes, length, at);
}

ssize_t __wrap_pwrite(int file, const void *bytes, size_t length, off_t at)
{
    size_t part = (size_t)number("PART");
    if (at == number("DEAF") && deaf++ == 0)
        return (ssize_t)length;
    keep_before(file, length, at);
    calls++;
    if (calls == number("CUT") && __real_pwrite(file, bytes, part < length ? part : length, at) >= 0)
        fail(file);
    return calls == number("BROKEN") ? give_error() : __real_pwrite(file, bytes, length, at);
}
