// Fails one call of a program on the files of a folder. ./dev faults compiles it and preloads it:
// the program calls the system by functions of the C library, which stand here in their place.
//
//   FAULT_FOLDER  the folder, an absolute path without links; a call on it or below it is traced
//   FAULT_KINDS   the kinds of calls that count, each between commas: ,open,read,write,sync,..
//   FAULT_AT      which call of these meets the fault, from 1; 0: none
//   FAULT_HOW     a number: the call fails with that errno. short: a read or write moves half.
//                 full: so does this write, and later ones have no space. nearly: the same, but all
//                 bytes except the last are written. kill: the process ends before the call
//   FAULT_STAYS   1: later calls of these kinds fail too
//   FAULT_SLOW    microseconds that each read at a place (`pread`) waits before, as on a slow
//                 device
//   FAULT_TRACE   a file that gets a line for each call that counts, with ! in front at the fault
//   FAULT_SHADOW  a folder that gets what a power loss leaves: the bytes of a file at its last
//                 sync, INODE.BIRTHS, and the names at the folder's last sync, `names`. A file
//                 whose sync failed is synced no more, as the kernel may drop what it could not
//                 write. The next process goes on from there.
#define _GNU_SOURCE
#include <dirent.h>
#include <errno.h>
#include <fcntl.h>
#include <limits.h>
#include <pthread.h>
#include <signal.h>
#include <stdarg.h>
#include <stdatomic.h>
#include <stdint.h>
#include <stdio.h>
#include <stdlib.h>
#include <string.h>
#include <sys/stat.h>
#include <sys/syscall.h>
#include <sys/uio.h>
#include <time.h>
#include <unistd.h>

enum answer { PASS, FAIL, HALF, MOST_OF };
enum { MOST = 4096, PIECE = 65536 };

// A file of the folder: how often one was made with this inode, and whether a sync of it failed.
struct file {
    uint64_t inode;
    uint32_t births;
    uint32_t lost;
};

static const char *folder, *kinds, *how, *shadow;
static unsigned long at;
static int stays, trace = -1;
static long slow;
static atomic_ulong count;
static struct file files[MOST];
static size_t known;
static pthread_mutex_t lock = PTHREAD_MUTEX_INITIALIZER;

__attribute__((constructor)) static void begin(void) {
    folder = getenv("FAULT_FOLDER");
    kinds = getenv("FAULT_KINDS");
    how = getenv("FAULT_HOW");
    shadow = getenv("FAULT_SHADOW");
    const char *text = getenv("FAULT_AT");
    at = text ? strtoul(text, NULL, 10) : 0;
    text = getenv("FAULT_STAYS");
    stays = text && *text == '1';
    text = getenv("FAULT_SLOW");
    slow = text ? strtol(text, NULL, 10) : 0;
    text = getenv("FAULT_TRACE");
    if (text) {
        int fd = syscall(SYS_openat, AT_FDCWD, text, O_WRONLY | O_CREAT | O_APPEND | O_CLOEXEC, 0644);
        trace = syscall(SYS_fcntl, fd, F_DUPFD_CLOEXEC, 500);
        syscall(SYS_close, fd);
    }
    char path[PATH_MAX];
    snprintf(path, sizeof path, "%s/known", shadow ? shadow : "");
    int fd = shadow ? syscall(SYS_openat, AT_FDCWD, path, O_RDONLY | O_CLOEXEC, 0) : -1;
    if (fd >= 0) {
        long got = syscall(SYS_read, fd, files, sizeof files);
        known = got > 0 ? got / sizeof *files : 0;
        syscall(SYS_close, fd);
    }
}

static int is_inside(const char *path) {
    size_t length = folder ? strlen(folder) : 0;
    return length && !strncmp(path, folder, length) && (path[length] == 0 || path[length] == '/');
}

// Decides on a call of a kind on a path.
static enum answer meet(const char *kind, const char *path) {
    char word[32];
    snprintf(word, sizeof word, ",%s,", kind);
    if (!is_inside(path) || !kinds || !strstr(kinds, word))
        return PASS;
    unsigned long number = atomic_fetch_add(&count, 1) + 1;
    int is_nearly = how && !strcmp(how, "nearly");
    int is_full = is_nearly || (how && !strcmp(how, "full"));
    int is_met = at && (number == at || ((stays || is_full) && number > at));
    if (trace >= 0) {
        char line[PATH_MAX + 64];
        int length = snprintf(line, sizeof line, "%s%s %s\n", is_met ? "!" : "", kind, path);
        syscall(SYS_write, trace, line, length);
    }
    if (!is_met || !how)
        return PASS;
    if (!strcmp(how, "kill")) {
        syscall(SYS_kill, getpid(), SIGKILL);
        for (;;)
            pause();
    }
    if (!strcmp(how, "short") || (is_full && number == at))
        return is_nearly ? MOST_OF : HALF;
    errno = is_full ? ENOSPC : atoi(how);
    return FAIL;
}

static void name_of(int fd, char *path) {
    char link[64];
    snprintf(link, sizeof link, "/proc/self/fd/%d", fd);
    long length = syscall(SYS_readlink, link, path, PATH_MAX - 1);
    path[length > 0 ? length : 0] = 0;
}

static enum answer meet_fd(const char *kind, int fd) {
    char path[PATH_MAX];
    name_of(fd, path);
    return meet(kind, path);
}

static enum answer meet_at(const char *kind, int dir, const char *name) {
    char path[PATH_MAX], base[PATH_MAX];
    if (*name == '/')
        return meet(kind, name);
    if (dir != AT_FDCWD)
        name_of(dir, base);
    else if (!getcwd(base, sizeof base))
        return PASS;
    snprintf(path, sizeof path, "%.2000s%s%.2000s", base, *name ? "/" : "", name);
    return meet(kind, path);
}

// ---- what a power loss leaves

static struct file *find_file(uint64_t inode) {
    for (size_t i = 0; i < known; i++)
        if (files[i].inode == inode)
            return &files[i];
    if (known == MOST)
        abort();
    files[known] = (struct file){.inode = inode};
    return &files[known++];
}

static int make(const char *name) {
    char path[2 * PATH_MAX];
    snprintf(path, sizeof path, "%s/%s", shadow, name);
    return syscall(SYS_openat, AT_FDCWD, path, O_WRONLY | O_CREAT | O_TRUNC | O_CLOEXEC, 0644);
}

static void save_known(void) {
    int fd = make("known");
    syscall(SYS_write, fd, files, known * sizeof *files);
    syscall(SYS_close, fd);
}

// Notes that a file was made, or that a sync of it failed.
static void note(int fd, int is_made) {
    struct stat found;
    int error = errno;
    if (shadow && !fstat(fd, &found) && S_ISREG(found.st_mode)) {
        pthread_mutex_lock(&lock);
        struct file *file = find_file(found.st_ino);
        file->births += is_made;
        file->lost = !is_made;
        save_known();
        pthread_mutex_unlock(&lock);
    }
    errno = error;
}

static void keep_bytes(int fd, const struct stat *found) {
    struct file *file = find_file(found->st_ino);
    char name[64], path[64], bytes[PIECE];
    if (file->lost)
        return;
    snprintf(name, sizeof name, "%lu.%u", (unsigned long)found->st_ino, file->births);
    snprintf(path, sizeof path, "/proc/self/fd/%d", fd);
    int from = syscall(SYS_openat, AT_FDCWD, path, O_RDONLY | O_CLOEXEC, 0), to = make(name);
    for (long got; (got = syscall(SYS_read, from, bytes, sizeof bytes)) > 0;)
        syscall(SYS_write, to, bytes, got);
    syscall(SYS_close, from);
    syscall(SYS_close, to);
}

static void keep_names(int fd, const struct stat *found) {
    char path[PATH_MAX], line[PATH_MAX];
    name_of(fd, path);
    DIR *list = opendir(path);
    snprintf(line, sizeof line, "names.%lu", (unsigned long)found->st_ino);
    int to = make(line);
    for (struct dirent *entry; list && (entry = readdir(list));) {
        int length = snprintf(line, sizeof line, "%lu.%u %s\n", (unsigned long)entry->d_ino,
                              find_file(entry->d_ino)->births, entry->d_name);
        if (entry->d_name[0] != '.')
            syscall(SYS_write, to, line, length);
    }
    if (list)
        closedir(list);
    syscall(SYS_close, to);
}

// Keeps what a sync made durable.
static void keep(int fd) {
    char path[PATH_MAX];
    struct stat found;
    name_of(fd, path);
    if (!shadow || !is_inside(path) || fstat(fd, &found))
        return;
    pthread_mutex_lock(&lock);
    if (S_ISREG(found.st_mode))
        keep_bytes(fd, &found);
    else if (S_ISDIR(found.st_mode))
        keep_names(fd, &found);
    pthread_mutex_unlock(&lock);
}

// ---- the calls

static int open_at(int dir, const char *name, int flags, unsigned mode) {
    if (meet_at("open", dir, name) == FAIL)
        return -1;
    int is_new = (flags & O_CREAT) && syscall(SYS_faccessat, dir, name, F_OK) != 0;
    int fd = syscall(SYS_openat, dir, name, flags, mode);
    char path[PATH_MAX];
    if (fd >= 0 && is_new) {
        name_of(fd, path);
        if (is_inside(path))
            note(fd, 1);
    }
    return fd;
}

static unsigned mode_of(int flags, va_list *rest) { return flags & O_CREAT ? va_arg(*rest, unsigned) : 0; }

int open(const char *name, int flags, ...) {
    va_list rest;
    va_start(rest, flags);
    unsigned mode = mode_of(flags, &rest);
    va_end(rest);
    return open_at(AT_FDCWD, name, flags, mode);
}

int openat(int dir, const char *name, int flags, ...) {
    va_list rest;
    va_start(rest, flags);
    unsigned mode = mode_of(flags, &rest);
    va_end(rest);
    return open_at(dir, name, flags, mode);
}

// The number of bytes that a call moves which meets this answer.
static size_t part(enum answer answer, size_t length) {
    if (answer == PASS || length < 2)
        return length;
    return answer == HALF ? length / 2 : length - 1;
}

ssize_t read(int fd, void *bytes, size_t length) {
    enum answer answer = meet_fd("read", fd);
    return answer == FAIL ? -1 : syscall(SYS_read, fd, bytes, part(answer, length));
}

ssize_t pread(int fd, void *bytes, size_t length, off_t from) {
    enum answer answer = meet_fd("read", fd);
    struct timespec wait = {slow / 1000000, slow % 1000000 * 1000};
    if (slow)
        syscall(SYS_nanosleep, &wait, NULL);
    return answer == FAIL ? -1 : syscall(SYS_pread64, fd, bytes, part(answer, length), from);
}

ssize_t write(int fd, const void *bytes, size_t length) {
    enum answer answer = meet_fd("write", fd);
    return answer == FAIL ? -1 : syscall(SYS_write, fd, bytes, part(answer, length));
}

ssize_t pwrite(int fd, const void *bytes, size_t length, off_t from) {
    enum answer answer = meet_fd("write", fd);
    return answer == FAIL ? -1 : syscall(SYS_pwrite64, fd, bytes, part(answer, length), from);
}

ssize_t writev(int fd, const struct iovec *parts, int number) {
    return meet_fd("write", fd) == FAIL ? -1 : syscall(SYS_writev, fd, parts, number);
}

static int sync_by(long call, int fd) {
    if (meet_fd("sync", fd) == FAIL) {
        if (errno != EINTR)
            note(fd, 0);
        return -1;
    }
    int done = syscall(call, fd);
    if (!done)
        keep(fd);
    return done;
}

int fsync(int fd) { return sync_by(SYS_fsync, fd); }

int fdatasync(int fd) { return sync_by(SYS_fdatasync, fd); }

int ftruncate(int fd, off_t length) {
    return meet_fd("cut", fd) == FAIL ? -1 : syscall(SYS_ftruncate, fd, length);
}

int fchmod(int fd, mode_t mode) { return meet_fd("mode", fd) == FAIL ? -1 : syscall(SYS_fchmod, fd, mode); }

int flock(int fd, int operation) {
    return meet_fd("lock", fd) == FAIL ? -1 : syscall(SYS_flock, fd, operation);
}

ssize_t getdents64(int fd, void *bytes, size_t length) {
    return meet_fd("list", fd) == FAIL ? -1 : syscall(SYS_getdents64, fd, bytes, length);
}

int unlinkat(int dir, const char *name, int flags) {
    return meet_at("remove", dir, name) == FAIL ? -1 : syscall(SYS_unlinkat, dir, name, flags);
}

int unlink(const char *name) { return unlinkat(AT_FDCWD, name, 0); }

int rename(const char *from, const char *to) {
    return meet_at("rename", AT_FDCWD, from) == FAIL ? -1 : syscall(SYS_rename, from, to);
}

int mkdir(const char *name, mode_t mode) {
    return meet_at("make", AT_FDCWD, name) == FAIL ? -1 : syscall(SYS_mkdir, name, mode);
}

int statx(int dir, const char *restrict name, int flags, unsigned mask, struct statx *restrict found) {
    return meet_at("stat", dir, name) == FAIL ? -1 : syscall(SYS_statx, dir, name, flags, mask, found);
}
