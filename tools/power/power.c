// Leaves out syncs of a program, reports what it has read, lets a call fail, and kills it at a
// call: for ./dev power, which compiles it and preloads it in the guest.
//
//   POWER_LEAVE_OUT  the syncs that are left out, each between commas, as ,opening,folder,
//                      opening   of a file that is open to read alone, as an opening and a roll
//                                have it
//                      manifest  of a manifest, a file NAME.manifest
//                      replace   of a file that is to replace one, NAME.manifest.new
//                      publish   of another file
//                      folder    of a directory
//                      all       each of these
//   POWER_MESSAGES   the device that gets a message `marker N` when the program has read entry N of
//                    the ledger MARKER; each number once, by rising numbers
//   POWER_FROM       the first entry that is reported
//   POWER_FOLDER     the folder, an absolute path: calls that change files in it are counted
//   POWER_KILL_AT    the process ends before this call, from 1; 0: never
//   POWER_FAIL_AT    this write or sync in the folder, from 1, fails with EIO, and does nothing; 0:
//                    none
#define _GNU_SOURCE
#include <errno.h>
#include <fcntl.h>
#include <limits.h>
#include <signal.h>
#include <stdarg.h>
#include <stdint.h>
#include <stdio.h>
#include <stdlib.h>
#include <string.h>
#include <sys/stat.h>
#include <sys/syscall.h>
#include <unistd.h>

enum { MARKER = 900, RECORD = 26, SECTOR = 512 };
static const char WORD[] = "marker", MANIFEST[] = ".manifest";

static const char *left_out, *folder;
static unsigned long kill_at, fail_at, count, faults;
static uint64_t next_marker;
static int messages = -1;

static unsigned long number(const char *name) {
    const char *text = getenv(name);
    return text ? strtoul(text, NULL, 10) : 0;
}

__attribute__((constructor)) static void begin(void) {
    left_out = getenv("POWER_LEAVE_OUT");
    folder = getenv("POWER_FOLDER");
    kill_at = number("POWER_KILL_AT");
    fail_at = number("POWER_FAIL_AT");
    next_marker = number("POWER_FROM");
    const char *device = getenv("POWER_MESSAGES");
    if (device) {
        int fd = syscall(SYS_openat, AT_FDCWD, device, O_WRONLY | O_DIRECT | O_CLOEXEC, 0);
        messages = syscall(SYS_fcntl, fd, F_DUPFD_CLOEXEC, 500);
        syscall(SYS_close, fd);
    }
}

static void name_of(int fd, char *path) {
    char link[64];
    snprintf(link, sizeof link, "/proc/self/fd/%d", fd);
    long length = syscall(SYS_readlink, link, path, PATH_MAX - 1);
    path[length > 0 ? length : 0] = 0;
}

static int is_inside(const char *path) { return folder && !strncmp(path, folder, strlen(folder)); }

// Counts a call that changes files, and ends the process at the one that was asked for.
static void change(const char *path) {
    if (is_inside(path) && __atomic_add_fetch(&count, 1, __ATOMIC_RELAXED) == kill_at) {
        syscall(SYS_kill, getpid(), SIGKILL);
        for (;;)
            pause();
    }
}

// Counts a write or a sync. Returns whether the device is to fail in it.
static int fails(int fd) {
    char path[PATH_MAX];
    name_of(fd, path);
    change(path);
    if (!is_inside(path) || __atomic_add_fetch(&faults, 1, __ATOMIC_RELAXED) != fail_at)
        return 0;
    errno = EIO;
    return 1;
}

// ---- syncs

static const char *kind_of(int fd) {
    struct stat found;
    char path[PATH_MAX];
    if (!fstat(fd, &found) && S_ISDIR(found.st_mode))
        return ",folder,";
    name_of(fd, path);
    const char *manifest = strstr(path, MANIFEST);
    if (manifest)
        return manifest[sizeof MANIFEST - 1] ? ",replace," : ",manifest,";
    return (fcntl(fd, F_GETFL) & O_ACCMODE) == O_RDONLY ? ",opening," : ",publish,";
}

static int sync_by(long call, int fd) {
    if (fails(fd))
        return -1;
    if (left_out && (strstr(left_out, ",all,") || strstr(left_out, kind_of(fd))))
        return 0;
    return syscall(call, fd);
}

int fsync(int fd) { return sync_by(SYS_fsync, fd); }

int fdatasync(int fd) { return sync_by(SYS_fdatasync, fd); }

// ---- messages

static uint64_t big_endian(const unsigned char *bytes, int length) {
    uint64_t found = 0;
    for (int i = 0; i < length; i++)
        found = found << 8 | bytes[i];
    return found;
}

// Reports a marker: a record of 22 bytes, its ledger, its entry and the word `marker`.
static void report(const unsigned char *bytes, long length) {
    static char block[SECTOR] __attribute__((aligned(4096)));
    if (messages < 0 || length != RECORD || big_endian(bytes, 4) != RECORD - 4 || big_endian(bytes + 4, 8) != MARKER ||
        memcmp(bytes + 20, WORD, sizeof WORD - 1) != 0)
        return;
    uint64_t entry = big_endian(bytes + 12, 8);
    if (entry < next_marker)
        return;
    next_marker = entry + 1;
    memset(block, 0, sizeof block);
    snprintf(block, sizeof block, "0 marker %lu", (unsigned long)entry);
    syscall(SYS_pwrite64, messages, block, sizeof block, 0);
}

ssize_t pread(int fd, void *bytes, size_t length, off_t from) {
    long got = syscall(SYS_pread64, fd, bytes, length, from);
    int error = errno;
    report(bytes, got);
    errno = error;
    return got;
}

// ---- other calls that change files

ssize_t write(int fd, const void *bytes, size_t length) {
    return fails(fd) ? -1 : syscall(SYS_write, fd, bytes, length);
}

ssize_t pwrite(int fd, const void *bytes, size_t length, off_t from) {
    return fails(fd) ? -1 : syscall(SYS_pwrite64, fd, bytes, length, from);
}

int ftruncate(int fd, off_t length) {
    char path[PATH_MAX];
    name_of(fd, path);
    change(path);
    return syscall(SYS_ftruncate, fd, length);
}

int unlink(const char *name) {
    change(name);
    return syscall(SYS_unlinkat, AT_FDCWD, name, 0);
}

int rename(const char *from, const char *to) {
    change(to);
    return syscall(SYS_rename, from, to);
}

int open(const char *name, int flags, ...) {
    va_list rest;
    va_start(rest, flags);
    unsigned mode = flags & O_CREAT ? va_arg(rest, unsigned) : 0;
    va_end(rest);
    if (flags & (O_CREAT | O_TRUNC))
        change(name);
    return syscall(SYS_openat, AT_FDCWD, name, flags, mode);
}

ssize_t pread64(int fd, void *bytes, size_t length, off_t from) __attribute__((alias("pread")));
ssize_t pwrite64(int fd, const void *bytes, size_t length, off_t from) __attribute__((alias("pwrite")));
int open64(const char *name, int flags, ...) __attribute__((alias("open")));
