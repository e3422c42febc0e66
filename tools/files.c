/* Whole files: read into memory; written beside their place, then put there. */
#define _XOPEN_SOURCE 700
#include "tool.h"

#include <errno.h>
#include <fcntl.h>
#include <signal.h>
#include <stdlib.h>
#include <string.h>
#include <sys/stat.h>
#include <unistd.h>

/* A standard descriptor that is closed is opened the wrong way round: then to read or write it is an error, and nothing is
 * lost unsaid. A file that may not become longer is an error too, and does not end the program. */
void prepare_files(void)
{
    signal(SIGXFSZ, SIG_IGN);
    for (int descriptor = STDIN_FILENO; descriptor <= STDERR_FILENO; descriptor++)
        if (fcntl(descriptor, F_GETFD) < 0 &&
            open("/dev/null", descriptor == STDIN_FILENO ? O_WRONLY : O_RDONLY) != descriptor)
            _exit(TROUBLE);
}

/* ---- Reading ---- */

/* The room to begin with: a byte more than the file has, so that its end shows at the first look. */
static size_t first_room(int descriptor, size_t most)
{
    struct stat about;
    size_t length = 65536;
    if (fstat(descriptor, &about) == 0 && S_ISREG(about.st_mode))
        length = (size_t)about.st_size;
    return (length < most ? length : most) + 1;
}

File read_descriptor(int descriptor, const char *name, size_t most)
{
    size_t room = first_room(descriptor, most);
    File file = {.name = name, .bytes = held(malloc(room))};
    while (file.length <= most) {
        if (file.length == room) {
            room = room < most / 2 ? 2 * room : most + 1;
            file.bytes = held(realloc(file.bytes, room));
        }
        ssize_t got = read(descriptor, file.bytes + file.length, room - file.length);
        if (got < 0 && errno != EINTR)
            system_trouble(name);
        if (got == 0)
            break;
        file.length += got > 0 ? (size_t)got : 0;
    }
    return file;
}

File read_file(const char *name, size_t most)
{
    if (strcmp(name, "-") == 0)
        return read_descriptor(STDIN_FILENO, "standard input", most);
    int descriptor = open(name, O_RDONLY | O_CLOEXEC);
    if (descriptor < 0)
        system_trouble(name);
    File file = read_descriptor(descriptor, name, most);
    close(descriptor);
    return file;
}

/* ---- Writing ---- */

bool write_took(ssize_t count, size_t *done)
{
    if (count == 0)
        errno = ENOSPC;
    if (count > 0)
        *done += (size_t)count;
    return count > 0 || (count < 0 && errno == EINTR);
}

static bool write_all(int descriptor, const uint8_t *bytes, size_t length)
{
    for (size_t done = 0; done < length;)
        if (!write_took(write(descriptor, bytes + done, length - done), &done))
            return false;
    return true;
}

bool flushed(int descriptor)
{
    return fdatasync(descriptor) == 0 || errno == EINVAL; /* of what has no disk */
}

/* To standard output, a device or a pipe, as it is. */
static void write_through(int descriptor, const char *name, bool is_text, const uint8_t *bytes, size_t length)
{
    if (!is_text && isatty(descriptor))
        trouble(name, "is a terminal, and these bytes are no text: give a file or a pipe");
    if (!write_all(descriptor, bytes, length) || close(descriptor) != 0)
        system_trouble(name);
}

static const char *volatile part; /* the file that is being written; it goes if the program is stopped */

static void remove_part(int signal_number)
{
    if (part)
        unlink(part);
    signal(signal_number, SIG_DFL);
    raise(signal_number);
}

/* A signal that is ignored stays so: with `nohup` the program is to outlive its terminal. */
static sigset_t remove_part_if_stopped(void)
{
    static const int numbers[] = {SIGHUP, SIGINT, SIGQUIT, SIGTERM, SIGALRM, SIGXCPU};
    struct sigaction action = {.sa_handler = remove_part}, old;
    sigset_t handled;
    sigemptyset(&handled);
    for (size_t i = 0; i < sizeof numbers / sizeof *numbers; i++) {
        sigaddset(&handled, numbers[i]);
        if (sigaction(numbers[i], NULL, &old) == 0 && old.sa_handler != SIG_IGN)
            sigaction(numbers[i], &action, NULL);
    }
    return handled;
}

/* A new file beside a place. No signal comes between its making and the note of its name. */
static int open_part(const char *place)
{
    char *own = joined(place, ".part-XXXXXX");
    sigset_t handled = remove_part_if_stopped(), old;
    sigprocmask(SIG_BLOCK, &handled, &old);
    int descriptor = mkstemp(own);
    if (descriptor >= 0)
        part = own;
    sigprocmask(SIG_SETMASK, &old, NULL);
    return descriptor;
}

/* The owner, the group and the rights of a file that is replaced stay, as far as the system lets us: only root may give a
 * file away, and where the group is another it gets no rights. Those of a new file are the usual. */
static void set_rights(int descriptor, const struct stat *old)
{
    mode_t mask = umask(0);
    umask(mask);
    mode_t mode = old ? old->st_mode & 0777 : 0666 & ~mask;
    if (old && fchown(descriptor, old->st_uid, old->st_gid) != 0 && fchown(descriptor, (uid_t)-1, old->st_gid) != 0)
        mode &= ~(mode_t)070;
    fchmod(descriptor, mode);
}

static void write_beside(const char *name, const char *place, const struct stat *old, const uint8_t *bytes, size_t length)
{
    int descriptor = open_part(place);
    if (descriptor < 0)
        trouble(name, joined("no file can be made beside it: ", strerror(errno)));
    set_rights(descriptor, old);
    bool written = write_all(descriptor, bytes, length) && flushed(descriptor);
    if (!written || close(descriptor) != 0 || rename(part, place) != 0) {
        int why = errno;
        unlink(part);
        errno = why;
        system_trouble(name);
    }
    part = NULL;
}

/* Root may write any file, so its rights are asked too. A link stays, and its file is replaced. */
void replace_file(const char *name, const uint8_t *bytes, size_t length)
{
    struct stat old;
    char *place = realpath(name, NULL);
    if (!place || stat(place, &old) != 0)
        system_trouble(name);
    if ((old.st_mode & 0222) == 0)
        trouble(name, "is write-protected");
    open_flash(name);
    write_beside(name, place, &old, bytes, length);
}

static void write_device(const char *name, bool is_text, const uint8_t *bytes, size_t length)
{
    int descriptor = open(name, O_WRONLY | O_CLOEXEC);
    if (descriptor < 0)
        system_trouble(name);
    write_through(descriptor, name, is_text, bytes, length);
}

bool is_same_file(const struct stat *one, const struct stat *other)
{
    return one->st_dev == other->st_dev && one->st_ino == other->st_ino;
}

/* What the system says of a file; of the standard one for `-`. */
static bool describe(const char *name, int standard, struct stat *about)
{
    return (strcmp(name, "-") == 0 ? fstat(standard, about) : stat(name, about)) == 0;
}

bool is_standard_output(const char *name)
{
    struct stat output, named;
    return strcmp(name, "-") == 0 ||
           (fstat(STDOUT_FILENO, &output) == 0 && stat(name, &named) == 0 && is_same_file(&output, &named));
}

void check_not_read(const char *input, const char *output)
{
    struct stat read, written;
    if (describe(input, STDIN_FILENO, &read) && describe(output, STDOUT_FILENO, &written) && S_ISREG(read.st_mode) &&
        is_same_file(&read, &written))
        trouble(strcmp(output, "-") == 0 ? "standard output" : output, "is the file that is read: give another name");
}

/* A name at which nothing is. */
static void write_new(const char *name, const uint8_t *bytes, size_t length)
{
    struct stat link;
    if (lstat(name, &link) == 0)
        trouble(name, "is a link to a file that is not there");
    write_beside(name, name, NULL, bytes, length);
}

static void write_kind(const char *name, bool is_text, const uint8_t *bytes, size_t length)
{
    struct stat old;
    bool exists = stat(name, &old) == 0, is_free = !exists && errno == ENOENT;
    if (is_standard_output(name))
        write_through(STDOUT_FILENO, "standard output", is_text, bytes, length);
    else if (exists && S_ISREG(old.st_mode))
        replace_file(name, bytes, length);
    else if (exists)
        write_device(name, is_text, bytes, length);
    else if (is_free)
        write_new(name, bytes, length);
    else
        system_trouble(name);
}

void write_file(const char *name, const uint8_t *bytes, size_t length)
{
    write_kind(name, false, bytes, length);
}

void write_text(const char *name, const uint8_t *text, size_t length)
{
    write_kind(name, true, text, length);
}

int end_output(int status)
{
    errno = 0;
    if (fflush(stdout) == 0 && !ferror(stdout))
        return status;
    if (errno == 0)
        trouble("standard output", "not all could be written");
    system_trouble("standard output");
}
