/* Times a server: usage: bench_bookie THREADS WINDOW SIZE COUNT SERVER DIR
 *
 * Each thread adds COUNT entries of SIZE bytes to a ledger of its own, with WINDOW requests sent ahead, then one flushes, and
 * each thread reads its entries in the same way. Prints a line: adds and reads a second of all threads, and the median and the
 * 99th percentile of the time from a request to its reply, in microseconds, of adds and of reads. */
#define _POSIX_C_SOURCE 200809L
#include "bookie.h"
#include <pthread.h>
#include <stdio.h>
#include <stdlib.h>
#include <string.h>
#include <time.h>

enum { MOST_THREADS = 64, MOST_WINDOW = 256 };

struct work {
    bookie *session;
    int call;
    uint64_t ledger, count, window;
    size_t size;
    uint8_t *content;
    double *times; /* of each request, in microseconds */
    int failed;
};

static double now(void) {
    struct timespec at;
    clock_gettime(CLOCK_MONOTONIC, &at);
    return (double)at.tv_sec * 1e6 + (double)at.tv_nsec / 1e3;
}

static void stop(const char *why) {
    fprintf(stderr, "bench_bookie: %s\n", why);
    exit(1);
}

static void wait_one(struct work *w, uint64_t id, double *begun) {
    bookie_reply reply;
    int status = bookie_wait(w->session, id, &reply);
    *begun = now() - *begun;
    size_t length = status == BOOKIE_ENTRY ? reply.length : w->size;
    if (status != (w->call == BOOKIE_ADD ? BOOKIE_ACCEPTED : BOOKIE_ENTRY) || length != w->size)
        w->failed = 1;
    bookie_reply_free(&reply);
}

/* Sends all requests of a thread, and waits for the oldest one where a window is open. */
static void *work(void *of) {
    struct work *w = of;
    uint64_t ids[MOST_WINDOW];
    for (uint64_t i = 0; i < w->count + w->window; i++) {
        if (i >= w->window)
            wait_one(w, ids[i % w->window], &w->times[i - w->window]);
        if (i >= w->count)
            continue;
        uint64_t key[] = {w->ledger, i};
        w->times[i] = now();
        ids[i % w->window] = bookie_send(w->session, w->call, key, w->content, w->call == BOOKIE_ADD ? w->size : 0);
        if (ids[i % w->window] == 0)
            stop("a request could not be sent");
    }
    return NULL;
}

static int by_size(const void *a, const void *b) {
    double x = *(const double *)a, y = *(const double *)b;
    return (x > y) - (x < y);
}

/* Runs a call in all threads. Prints its rate, median and 99th percentile. */
static void run(struct work *works, uint64_t threads, int call, double *times) {
    pthread_t ids[MOST_THREADS];
    double begun = now();
    for (uint64_t t = 0; t < threads; t++) {
        works[t].call = call;
        if (pthread_create(&ids[t], NULL, work, &works[t]))
            stop("no thread");
    }
    for (uint64_t t = 0; t < threads; t++) {
        pthread_join(ids[t], NULL);
        if (works[t].failed)
            stop("a reply is not the wanted one");
    }
    double all = now() - begun;
    uint64_t count = threads * works[0].count;
    qsort(times, count, sizeof *times, by_size);
    printf(" %9.0f %7.1f %7.1f", (double)count / all * 1e6, times[count / 2], times[count * 99 / 100]);
}

int main(int argc, char **argv) {
    if (argc != 7)
        stop("usage: bench_bookie THREADS WINDOW SIZE COUNT SERVER DIR");
    uint64_t threads = strtoull(argv[1], NULL, 10), window = strtoull(argv[2], NULL, 10);
    uint64_t size = strtoull(argv[3], NULL, 10), count = strtoull(argv[4], NULL, 10);
    if (threads < 1 || threads > MOST_THREADS || window < 1 || window * threads > MOST_WINDOW || count < 1)
        stop("1 to 64 threads, and 1 to 256 requests ahead in all");
    char *command[] = {argv[5], argv[6], NULL};
    bookie *session;
    if (bookie_open(command, &session) != BOOKIE_WELCOME)
        stop("the directory did not open");
    struct work works[MOST_THREADS];
    double *times = malloc(threads * count * sizeof *times);
    uint8_t *content = malloc(size + 1);
    if (!times || !content)
        stop("memory");
    memset(content, 'x', size);
    for (uint64_t t = 0; t < threads; t++)
        works[t] = (struct work){session, 0, t + 1, count, window, size, content, times + t * count, 0};
    printf("%2llu %4llu %6llu", (unsigned long long)threads, (unsigned long long)window, (unsigned long long)size);
    run(works, threads, BOOKIE_ADD, times);
    bookie_reply reply;
    if (bookie_wait(session, bookie_send(session, BOOKIE_FLUSH, NULL, NULL, 0), &reply) != BOOKIE_FLUSHED)
        stop("the flush failed");
    bookie_reply_free(&reply);
    run(works, threads, BOOKIE_READ, times);
    printf("\n");
    free(times);
    free(content);
    return bookie_close(session);
}
