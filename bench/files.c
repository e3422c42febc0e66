/* Whole files, in and out. */
#include "bench.h"

#include <fcntl.h>
#include <stdio.h>
#include <sys/mman.h>
#include <sys/stat.h>
#include <unistd.h>

uint8_t *load(const char *path, size_t *length)
{
    int fd = open(path, O_RDONLY);
    struct stat s;
    if (fd < 0 || fstat(fd, &s) != 0)
        fail(path);
    *length = (size_t)s.st_size;
    uint8_t *bytes = mmap(NULL, *length, PROT_READ, MAP_PRIVATE | MAP_POPULATE, fd, 0);
    if (bytes == MAP_FAILED)
        fail(path);
    close(fd);
    return bytes;
}

void unload(uint8_t *bytes, size_t length)
{
    if (munmap(bytes, length) != 0)
        fail("munmap");
}

void store(const char *path, const uint8_t *bytes, size_t length)
{
    FILE *f = fopen(path, "wb");
    if (!f || fwrite(bytes, 1, length, f) != length || fclose(f) != 0)
        fail(path);
}

uint8_t *new_file(const char *path, size_t length)
{
    int fd = open(path, O_RDWR | O_CREAT | O_TRUNC, 0666);
    if (fd < 0 || ftruncate(fd, (off_t)length) != 0)
        fail(path);
    uint8_t *bytes = mmap(NULL, length, PROT_READ | PROT_WRITE, MAP_SHARED, fd, 0);
    if (bytes == MAP_FAILED)
        fail(path);
    close(fd);
    return bytes;
}
