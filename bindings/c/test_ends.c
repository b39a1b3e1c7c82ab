/* Tests other ends of a session than bookie_close: see test_ends.h. What gets a signal or has no
 * standard streams is a fork. */
#define _POSIX_C_SOURCE 200809L
#include "test_ends.h"
#include "bookie.h"
#include <pthread.h>
#include <signal.h>
#include <stdio.h>
#include <stdlib.h>
#include <string.h>
#include <sys/wait.h>
#include <time.h>
#include <unistd.h>

#define FEW 100    /* entries of a session */
#define SECONDS 60 /* limit on a fork, and on waiting for a predecessor */

static void must(const char *what, int is) {
    if (is) return;
    fprintf(stderr, "%s: failed\n", what);
    exit(1);
}

static bookie *open_session(char *const command[]) {
    bookie *b;
    must("open", bookie_open(command, &b) == BOOKIE_WELCOME);
    return b;
}

static uint64_t send_one(bookie *b, uint64_t ledger, uint64_t entry) {
    uint64_t id = bookie_send(b, BOOKIE_ADD, (uint64_t[]){ledger, entry}, "x", 1);
    must("send", id != 0);
    return id;
}

/* Adds entries from one id on. */
static void add_some(bookie *b, uint64_t ledger, uint64_t from, uint64_t count) {
    uint64_t sent[FEW];
    for (uint64_t i = 0; i < count; i++) sent[i] = send_one(b, ledger, from + i);
    for (uint64_t i = 0; i < count; i++) {
        must("add", bookie_wait(b, sent[i], NULL) == BOOKIE_ACCEPTED);
    }
}

static bookie *add_few(char *const command[], uint64_t ledger) {
    bookie *b = open_session(command);
    add_some(b, ledger, 0, FEW);
    return b;
}

static size_t count_entries(bookie *b, uint64_t ledger) {
    uint64_t ids[2 * FEW];
    size_t count;
    must("entries", bookie_entries(b, ledger, 0, ids, 2 * FEW, &count) == BOOKIE_PAGE);
    return count;
}

/* How many entries of a ledger a new session finds. It waits for a predecessor that still flushes.
 * */
static size_t found(char *const command[], uint64_t ledger) {
    bookie *b = open_session(command);
    size_t count = count_entries(b, ledger);
    must("close", bookie_close(b) == 0);
    return count;
}

static void sleep_for(long milliseconds) {
    nanosleep(&(struct timespec){milliseconds / 1000, milliseconds % 1000 * 1000000}, NULL);
}

/* Adds more entries after a flush, or none. The server is killed, not by the client. Prints how
 * many entries may be lost. */
static void died(char *const command[], uint64_t ledger, int is_flushed, uint64_t more) {
    bookie *b = add_few(command, ledger);
    if (is_flushed) must("flush", bookie_flush(b) == BOOKIE_FLUSHED);
    add_some(b, ledger, FEW, more);
    kill(bookie_pid(b), SIGKILL);
    unsigned long long count = bookie_unflushed(b);
    if (bookie_close(b) == 0) printf(" silent");
    else printf(" %llu", count);
}

static volatile sig_atomic_t is_interrupted;

static void interrupt(int number) {
    (void)number;
    is_interrupted = 1;
}

/* Adds entries, and waits for a signal. Closes in order after SIGINT; another one ends it at once.
 * */
static void play_signalled(char *const command[], uint64_t ledger, int ready) {
    setpgid(0, 0);
    signal(SIGINT, interrupt);
    signal(SIGTERM, SIG_DFL);
    signal(SIGHUP, SIG_DFL);
    bookie *b = add_few(command, ledger);
    must("write", write(ready, "r", 1) == 1);
    while (!is_interrupted) sleep_for(10);
    _exit(bookie_close(b) != 0);
}

/* Sends a signal to the process group of a fork with a session. Returns how many of its entries are
 * found. */
static size_t signalled(char *const command[], uint64_t ledger, int number) {
    int ready[2], status;
    char byte;
    must("pipe", pipe(ready) == 0);
    pid_t child = fork();
    must("fork", child >= 0);
    if (child == 0) {
        alarm(SECONDS);
        play_signalled(command, ledger, ready[1]);
    }
    close(ready[1]);
    must("ready", read(ready[0], &byte, 1) == 1);
    close(ready[0]);
    kill(-child, number);
    must("wait", waitpid(child, &status, 0) == child);
    int is_killed = WIFSIGNALED(status) && WTERMSIG(status) == number;
    must("status", number == SIGINT ? status == 0 : is_killed);
    return found(command, ledger);
}

/* Whether the server's error stream is /dev/null, or that cannot be seen. */
static int has_no_errors(const bookie *b) {
    char path[64], target[16];
    snprintf(path, sizeof path, "/proc/%ld/fd/2", (long)bookie_pid(b));
    ssize_t n = readlink(path, target, sizeof target);
    if (n < 0) return access("/proc/self/fd", F_OK) != 0;
    return n == 9 && memcmp(target, "/dev/null", 9) == 0;
}

/* Adds an entry in a fork without standard input, output and errors. Returns how many of its
 * entries are found. */
static size_t without_streams(char *const command[], uint64_t ledger) {
    int status;
    pid_t child = fork();
    must("fork", child >= 0);
    if (child == 0) {
        bookie *b;
        alarm(SECONDS);
        for (int file = 0; file < 3; file++) close(file);
        if (bookie_open(command, &b) != BOOKIE_WELCOME) _exit(2);
        if (bookie_add(b, ledger, 0, "x", 1, NULL) != BOOKIE_ACCEPTED) _exit(3);
        if (!has_no_errors(b)) _exit(4);
        _exit(bookie_close(b) != 0);
    }
    must("wait", waitpid(child, &status, 0) == child);
    must("status", status == 0);
    return found(command, ledger);
}

/* Waits for no reply. Returns how many of the entries are found by a later call. */
static size_t cancelled(char *const command[], uint64_t ledger) {
    bookie *b = open_session(command);
    for (uint64_t e = 0; e < FEW; e++) (void)send_one(b, ledger, e);
    size_t count = count_entries(b, ledger);
    must("close", bookie_close(b) == 0);
    return count;
}

static long now(void) {
    struct timespec at;
    clock_gettime(CLOCK_MONOTONIC, &at);
    return (long)at.tv_sec * 1000 + at.tv_nsec / 1000000;
}

struct later {
    bookie *session;
    long milliseconds;
};

static void *close_later(void *given) {
    struct later *it = given;
    sleep_for(it->milliseconds);
    must("close", bookie_close(it->session) == 0);
    return NULL;
}

/* Opens the directory while a predecessor has it, without and with time. */
static void succeed(char *const command[], uint64_t ledger) {
    struct later first = {add_few(command, ledger), now()};
    bookie *second;
    pthread_t thread;
    printf("successor %s ", bookie_status_text(bookie_open_within(command, 0, &second)));
    /* So the next opening is refused at first. */
    first.milliseconds = 300 + 2 * (now() - first.milliseconds);
    must("thread", pthread_create(&thread, NULL, close_later, &first) == 0);
    must("open", bookie_open_within(command, 1000 * SECONDS, &second) == BOOKIE_WELCOME);
    printf("%zu\n", count_entries(second, ledger));
    must("close", bookie_close(second) == 0);
    pthread_join(thread, NULL);
}

void test_ends(char *const command[]) {
    static const int numbers[] = {SIGINT, SIGTERM, SIGHUP};
    printf("died");
    died(command, 11, 0, 0);
    died(command, 12, 1, 0);
    died(command, 20, 1, 30);
    printf("\nsignals");
    for (int i = 0; i < 3; i++) {
        fflush(stdout);
        printf(" %zu", signalled(command, 13 + (uint64_t)i, numbers[i]));
    }
    printf("\ncancelled %zu\n", cancelled(command, 16));
    fflush(stdout);
    printf("without streams %zu\n", without_streams(command, 17));
    succeed(command, 18);
}
