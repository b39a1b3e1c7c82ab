// Changes what reads of a program give. tools/programs/device.py compiles it and preloads it.
//
//   READS_INTERRUPTED  1: every other read of the standard input fails with EINTR
//   READS_FLIP         a file, an absolute path without links, of which reads give one byte changed
//   READS_AT           the place of that byte in the file
#define _GNU_SOURCE
#include <errno.h>
#include <limits.h>
#include <stdatomic.h>
#include <stdio.h>
#include <stdlib.h>
#include <string.h>
#include <sys/syscall.h>
#include <unistd.h>

static const char *flipped;
static int is_interrupted;
static long place;
static atomic_uint count;

__attribute__((constructor)) static void begin(void) {
    const char *text = getenv("READS_INTERRUPTED");
    is_interrupted = text && *text == '1';
    flipped = getenv("READS_FLIP");
    text = getenv("READS_AT");
    place = text ? strtol(text, NULL, 10) : 0;
}

// Changes the byte at the place, if these bytes of the file have it.
static long change(int fd, unsigned char *bytes, long got, long from) {
    char link[64], path[PATH_MAX];
    if (!flipped || got <= 0 || place < from || place >= from + got)
        return got;
    snprintf(link, sizeof link, "/proc/self/fd/%d", fd);
    long length = syscall(SYS_readlink, link, path, PATH_MAX - 1);
    path[length > 0 ? length : 0] = 0;
    if (!strcmp(path, flipped))
        bytes[place - from] ^= 1;
    return got;
}

ssize_t read(int fd, void *bytes, size_t length) {
    if (fd == 0 && is_interrupted && atomic_fetch_add(&count, 1) % 2 == 0) {
        errno = EINTR;
        return -1;
    }
    long from = flipped ? lseek(fd, 0, SEEK_CUR) : 0;
    return change(fd, bytes, syscall(SYS_read, fd, bytes, length), from);
}

ssize_t pread(int fd, void *bytes, size_t length, off_t from) {
    return change(fd, bytes, syscall(SYS_pread64, fd, bytes, length, from), from);
}

ssize_t pread64(int fd, void *bytes, size_t length, off_t from) {
    return pread(fd, bytes, length, from);
}
