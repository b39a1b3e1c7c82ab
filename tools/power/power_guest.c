// The first process of the guest of ./dev power, and the commands of its jobs by which it reports.
//
// As the first process it loads the modules of /modules/list and does one job after another. A job
// `look TYPE OPTIONS` mounts the data disk and reports its directory of logs; it starts no other
// process, since each costs tens of milliseconds without acceleration. Another job is a script,
// which /jobs.sh runs with these commands:
//
//   say WORD..                     reports words, at this moment of the data disk
//   send_logs WORD..               reports the directory of logs as an archive, an empty one if it
//                                  is not there
//   run NUMBER FROM KILL_AT FAIL_AT WORD..
//                                  runs the program with /tmp/steps, between two reports: begin
//                                  NUMBER, and end NUMBER STATUS with its output, a line `--` and
//                                  its error output; ends with its status. With the first word
//                                  `serve` it runs the server with the others, whose client is
//                                  power_client.c
//
// /dev/vda is the data disk, /dev/vdb takes messages, /dev/vdc has the next job.
#define _GNU_SOURCE
#include "power_guest.h"
#include <dirent.h>
#include <errno.h>
#include <fcntl.h>
#include <stdio.h>
#include <stdlib.h>
#include <string.h>
#include <sys/mount.h>
#include <sys/stat.h>
#include <sys/syscall.h>
#include <sys/wait.h>
#include <unistd.h>

// As in power_nbd.py: where the data of a message is put, and where the next job is read, its
// length and its text.
enum { SECTOR = 512, BLOCK = 4096, DATA_AT = 1 << 20, JOB_AT = 16 << 20, TEXT_AT = 32 << 20, MOST = 64 << 20 };
static const char LOGS[] = "/mnt/logs";

void stop(const char *why) {
    fprintf(stderr, "dev power: %s: %s\n", why, strerror(errno));
    exit(99);
}

// ---- messages

struct bytes area(void) {
    // Pages are made when they are written to.
    static char *all;
    if (!all && posix_memalign((void **)&all, BLOCK, MOST))
        stop("no memory");
    return (struct bytes){all, 0};
}

void add(struct bytes *to, const void *data, size_t length, size_t block) {
    size_t whole = (length + block - 1) / block * block;
    if (to->length + whole > MOST)
        stop("a message is too long");
    memmove(to->at + to->length, data, length);
    memset(to->at + to->length + length, 0, whole - length);
    to->length += whole;
}

int add_rest(struct bytes *to, int fd) {
    for (;;) {
        if (to->length + (1 << 16) > MOST)
            stop("a message is too long");
        long got = read(fd, to->at + to->length, 1 << 16);
        if (got <= 0)
            return got < 0 ? errno : 0;
        to->length += got;
    }
}

// Adds a file. Returns 0, or why it cannot be read.
static int add_file(struct bytes *to, int folder, const char *name) {
    int fd = openat(folder, name, O_RDONLY | O_CLOEXEC);
    if (fd < 0)
        return errno;
    int why = add_rest(to, fd);
    close(fd);
    return why;
}

void report(struct bytes data, const char *words) {
    static char block[SECTOR] __attribute__((aligned(BLOCK)));
    static int fd = -1;
    if (fd < 0 && (fd = open("/dev/vdb", O_WRONLY | O_DIRECT | O_CLOEXEC)) < 0)
        stop("/dev/vdb");
    size_t whole = (data.length + SECTOR - 1) / SECTOR * SECTOR;
    if (whole)
        memset(data.at + data.length, 0, whole - data.length);
    for (size_t done = 0; done < whole;) {
        long put = pwrite(fd, data.at + done, whole - done < 1 << 20 ? whole - done : 1 << 20, DATA_AT + done);
        if (put <= 0)
            stop("a message");
        done += put;
    }
    memset(block, 0, sizeof block);
    snprintf(block, sizeof block, "%zu %s", data.length, words);
    if (pwrite(fd, block, sizeof block, 0) != sizeof block)
        stop("a message");
}

static const char *joined(char **words) {
    static char text[SECTOR - 32];
    text[0] = 0;
    for (; *words; words++)
        snprintf(text + strlen(text), sizeof text - strlen(text), *text ? " %s" : "%s", *words);
    return text;
}

// ---- the directory of logs

static void add_member(struct bytes *to, const char *name, char type, size_t length) {
    char head[SECTOR] = {0};
    snprintf(head, 100, "%s", name);
    snprintf(head + 100, 8, "%07o", type == '5' ? 0755 : 0644);
    snprintf(head + 108, 8, "%07o", 0);
    snprintf(head + 116, 8, "%07o", 0);
    snprintf(head + 124, 12, "%011lo", (unsigned long)length);
    snprintf(head + 136, 12, "%011o", 0);
    head[156] = type;
    memcpy(head + 257, "ustar\00000", 8);
    memset(head + 148, ' ', 8);
    unsigned sum = 0;
    for (int i = 0; i < SECTOR; i++)
        sum += (unsigned char)head[i];
    snprintf(head + 148, 8, "%06o", sum);
    add(to, head, SECTOR, SECTOR);
}

// Makes an archive (tar) of the directory. Returns why a file cannot be read, or null.
static const char *archive(struct bytes *to) {
    static char why[400];
    DIR *all = opendir(LOGS);
    if (!all && errno != ENOENT) {
        snprintf(why, sizeof why, "%s: %s", LOGS, strerror(errno));
        return why;
    }
    if (all)
        add_member(to, "logs/", '5', 0);
    for (struct dirent *it; all && (errno = 0, it = readdir(all));) {
        char name[300];
        struct stat found;
        snprintf(name, sizeof name, "logs/%s", it->d_name);
        if (!strcmp(it->d_name, ".") || !strcmp(it->d_name, ".."))
            continue;
        int error = fstatat(dirfd(all), it->d_name, &found, AT_SYMLINK_NOFOLLOW) ? errno : 0;
        size_t head = to->length;
        add_member(to, name, !error && S_ISREG(found.st_mode) ? '0' : '5', 0);
        size_t from = to->length;
        if (!error && S_ISREG(found.st_mode))
            error = add_file(to, dirfd(all), it->d_name);
        if (error) {
            snprintf(why, sizeof why, "%s: %s", name, strerror(error));
            return why;
        }
        // The length is known now.
        size_t length = to->length - from;
        to->length = head;
        add_member(to, name, S_ISREG(found.st_mode) ? '0' : '5', length);
        to->length = from;
        add(to, to->at + from, length, SECTOR);
    }
    if (all && errno) {
        snprintf(why, sizeof why, "%s: %s", LOGS, strerror(errno));
        return why;
    }
    if (all)
        closedir(all);
    char end[2 * SECTOR] = {0};
    add(to, end, sizeof end, SECTOR);
    return NULL;
}

static void send_logs(const char *words) {
    struct bytes tar = area();
    const char *why = archive(&tar);
    if (why) {
        tar = area();
        add(&tar, why, strlen(why), 1);
    }
    report(tar, why ? "unread" : words);
}

// ---- processes

int status_of(int child) {
    int status;
    if (waitpid(child, &status, 0) < 0)
        stop("waitpid");
    return WIFSIGNALED(status) ? 128 + WTERMSIG(status) : WEXITSTATUS(status);
}

static int start(char **words, int in, int out, int err) {
    int child = fork();
    if (child < 0)
        stop("fork");
    if (!child) {
        dup2(in, 0), dup2(out, 1), dup2(err, 2);
        execv(words[0], words);
        _exit(127);
    }
    return status_of(child);
}

int opened(const char *name, int flags) {
    int fd = open(name, flags | O_CLOEXEC, 0644);
    if (fd < 0)
        stop(name);
    return fd;
}

// run NUMBER FROM KILL_AT FAIL_AT WORD..
static int run(char **words) {
    char text[64], **with = words + 3;
    snprintf(text, sizeof text, "begin %s", words[0]);
    report((struct bytes){0}, text);
    setenv("LD_PRELOAD", "/power.so", 1);
    setenv("POWER_MESSAGES", "/dev/vdb", 1);
    setenv("POWER_FOLDER", LOGS, 1);
    setenv("POWER_FROM", words[1], 1);
    setenv("POWER_KILL_AT", words[2], 1);
    setenv("POWER_FAIL_AT", words[3], 1);
    int is_served = !strcmp(words[4], "serve"), made = O_RDWR | O_CREAT | O_TRUNC;
    int out = opened("/tmp/out", made), err = opened("/tmp/err", made);
    with += is_served;
    with[0] = is_served ? "/server" : "/program";
    int status = is_served ? serve(with, words[0], err) : start(with, opened("/tmp/steps", O_RDONLY), out, err);
    struct bytes said = area();
    if (add_file(&said, AT_FDCWD, "/tmp/out"))
        stop("/tmp/out");
    add(&said, "--\n", 3, 1);
    if (add_file(&said, AT_FDCWD, "/tmp/err"))
        stop("/tmp/err");
    snprintf(text, sizeof text, "end %s %d", words[0], status);
    report(said, text);
    return status;
}

// ---- jobs

// look TYPE OPTIONS: mounts the data disk and reports the directory, or why it cannot be mounted.
static void look(char *type, char *options) {
    int error = 0;
    char text[200];
    if (*options) {
        char *words[] = {"/bin/mount", "-t", type, "-o", options, "/dev/vda", "/mnt", NULL};
        int none = opened("/dev/null", O_RDWR);
        error = start(words, none, none, none) ? EINVAL : 0;
        close(none);
    } else {
        error = mount("/dev/vda", "/mnt", type, MS_SILENT, NULL) ? errno : 0;
    }
    if (!error)
        return send_logs("tar");
    struct bytes why = area();
    int length = snprintf(text, sizeof text, "%s", strerror(error));
    add(&why, text, length, 1);
    report(why, "unmounted");
}

static void job(void) {
    static char block[BLOCK] __attribute__((aligned(BLOCK)));
    static int fd = -1;
    if (fd < 0)
        fd = opened("/dev/vdc", O_RDONLY | O_DIRECT);
    if (pread(fd, block, BLOCK, JOB_AT) != BLOCK)
        stop("the next job");
    size_t length = strtoul(block, NULL, 10), whole = (length + BLOCK - 1) / BLOCK * BLOCK;
    char *text = area().at;
    for (size_t done = 0; done < whole;) {
        long got = pread(fd, text + done, whole - done < 1 << 20 ? whole - done : 1 << 20, TEXT_AT + done);
        if (got <= 0)
            stop("a job");
        done += got;
    }
    text[length] = 0;
    char type[32], options[400] = "";
    if (sscanf(text, "look %31s %399s", type, options) >= 1) {
        look(type, options);
    } else {
        int script = opened("/tmp/job", O_WRONLY | O_CREAT | O_TRUNC), console = opened("/dev/console", O_RDWR);
        if (write(script, text, length) != (long)length)
            stop("/tmp/job");
        close(script);
        char *words[] = {"/bin/sh", "/jobs.sh", NULL};
        start(words, console, console, console);
        close(console);
        while (waitpid(-1, NULL, WNOHANG) > 0)
            continue;
    }
    // EINVAL: nothing is mounted. The disk is another one from the next job on.
    if (umount2("/mnt", 0) && errno != EINVAL)
        stop("/mnt stays mounted");
    report((struct bytes){0}, "done");
}

static void begin(void) {
    for (const char *const *it = (const char *const[]){"/dev", "/proc", "/sys", "/tmp", "/mnt", "/bin", NULL}; *it; it++)
        mkdir(*it, 0755);
    mount("dev", "/dev", "devtmpfs", 0, NULL);
    mount("proc", "/proc", "proc", 0, NULL);
    mount("sys", "/sys", "sysfs", 0, NULL);
    mount("tmp", "/tmp", "tmpfs", 0, NULL);
    setenv("PATH", "/bin", 1);
    char *install[] = {"/bin/busybox", "--install", "-s", "/bin", NULL};
    start(install, 0, 1, 2);
    FILE *list = fopen("/modules/list", "r");
    for (char name[200], path[220]; list && fscanf(list, "%199s", name) == 1;) {
        snprintf(path, sizeof path, "/modules/%s", name);
        if (syscall(SYS_finit_module, opened(path, O_RDONLY), "", 0) && errno != EEXIST)
            stop(path);
    }
    while (access("/dev/vdc", F_OK))
        usleep(100000);
}

int main(int count, char **words) {
    const char *slash = strrchr(words[0], '/'), *name = slash ? slash + 1 : words[0];
    if (!strcmp(name, "run"))
        return count < 6 ? 99 : run(words + 1);
    if (!strcmp(name, "say"))
        report((struct bytes){0}, joined(words + 1));
    else if (!strcmp(name, "send_logs"))
        send_logs(joined(words + 1));
    else
        for (begin();;)
            job();
    return 0;
}
