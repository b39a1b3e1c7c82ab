/* Tests the client: usage: test_bookie SERVER DIR. Prints the summary that the tests of all clients print, line for line. DIR and
 * DIR-ends do not exist or are empty. */
#define _POSIX_C_SOURCE 200809L
#include "bookie.h"
#include "sha256.h"
#include "test_ends.h"
#include <pthread.h>
#include <stdio.h>
#include <stdlib.h>
#include <string.h>
#include <sys/wait.h>

#define COUNT 2000 /* entries of each of two ledgers */
#define LARGE 5    /* large entries that are added, and as many again while they are read */
#define PAGE 1000
#define LOGS 6
/* Of ten entries of a log so many are of a ledger that is not deleted. */
static const uint64_t LIVE[LOGS] = {0, 1, 1, 5, 6, 9};

typedef struct {
    bookie *b;
    uint64_t ledger;
    bookie_receipt receipts[COUNT];
} ledger_of_a_thread;

static void fail(const char *what, int status) {
    fprintf(stderr, "%s: %s\n", what, bookie_status_text(status));
    exit(1);
}

static void must(const char *what, int status, int wanted) {
    if (status != wanted) fail(what, status);
}

static size_t content(uint64_t ledger, uint64_t entry, uint8_t *out) {
    size_t length = 20 + entry % 100;
    for (size_t i = 0; i < length; i++) out[i] = (uint8_t)(ledger * 31 + entry * 7 + i);
    return length;
}

static void ids(uint64_t ledger, uint64_t entry, uint8_t out[16]) {
    for (int i = 0; i < 8; i++) {
        out[i] = (uint8_t)(ledger >> (56 - 8 * i));
        out[8 + i] = (uint8_t)(entry >> (56 - 8 * i));
    }
}

static int has(const bookie_reply *reply, uint64_t ledger, uint64_t entry) {
    uint8_t bytes[128];
    size_t length = content(ledger, entry, bytes);
    return reply->status == BOOKIE_ENTRY && reply->numbers[1] == entry && reply->length == length && memcmp(reply->bytes, bytes, length) == 0;
}

static const char *yes(int is) {
    return is ? "yes" : "no";
}

/* The name of a refusal, else `accepted`. */
static const char *refusal(int status) {
    if (status < 0) fail("session", status);
    return bookie_is_refusal(status) ? bookie_status_text(status) : "accepted";
}

static int read_is(bookie *b, uint64_t ledger, uint64_t entry) {
    bookie_reply reply;
    bookie_read(b, ledger, entry, &reply);
    int is = has(&reply, ledger, entry);
    bookie_reply_free(&reply);
    return is;
}

static const char *hex(const bookie_reply *reply, char *out) {
    if (reply->status != BOOKIE_ATTRIBUTE) return "none";
    for (size_t i = 0; i < reply->length; i++) sprintf(out + 2 * i, "%02x", reply->bytes[i]);
    return out;
}

/* ---- adds */

/* The receipt of an add that was sent; adds again after a flush as long as the cache is full. */
static void take_receipt(ledger_of_a_thread *l, uint64_t entry, uint64_t id) {
    uint8_t bytes[128];
    bookie_reply reply;
    bookie_receipt *receipt = &l->receipts[entry];
    int status = bookie_wait(l->b, id, &reply);
    if (status == BOOKIE_ACCEPTED) {
        *receipt = (bookie_receipt){.number = reply.numbers[0], .ledger = l->ledger, .entry = entry};
        memcpy(receipt->digest, reply.bytes, 32);
    }
    bookie_reply_free(&reply);
    while (status == BOOKIE_FULL) {
        must("flush", bookie_flush(l->b), BOOKIE_FLUSHED);
        status = bookie_add(l->b, l->ledger, entry, bytes, content(l->ledger, entry, bytes), receipt);
    }
    must("add", status, BOOKIE_ACCEPTED);
}

static void *add_ledger(void *given) {
    ledger_of_a_thread *l = given;
    uint64_t sent[COUNT];
    uint8_t bytes[128];
    for (uint64_t e = 0; e < COUNT; e++) {
        size_t length = content(l->ledger, e, bytes);
        sent[e] = bookie_send(l->b, BOOKIE_ADD, (uint64_t[]){l->ledger, e}, bytes, length);
    }
    for (uint64_t e = 0; e < COUNT; e++) take_receipt(l, e, sent[e]);
    return NULL;
}

static int is_right(const bookie_receipt *r) {
    uint8_t entry[144], digest[32];
    ids(r->ledger, r->entry, entry);
    sha256_of(entry, 16 + content(r->ledger, r->entry, entry + 16), digest);
    return memcmp(digest, r->digest, 32) == 0;
}

static void add_all(bookie *b, bookie_receipt *one) {
    static ledger_of_a_thread ledgers[2];
    pthread_t threads[2];
    for (int t = 0; t < 2; t++) {
        ledgers[t].b = b;
        ledgers[t].ledger = (uint64_t)t + 1;
        if (pthread_create(&threads[t], NULL, add_ledger, &ledgers[t]) != 0) fail("thread", BOOKIE_INVALID);
    }
    int right = 0, is_rising = 1;
    for (int t = 0; t < 2; t++) {
        pthread_join(threads[t], NULL);
        for (int e = 0; e < COUNT; e++) {
            right += is_right(&ledgers[t].receipts[e]);
            is_rising &= e == 0 || ledgers[t].receipts[e].number > ledgers[t].receipts[e - 1].number;
        }
    }
    printf("added %d digests %d %s\n", 2 * COUNT, right, is_rising ? "rising" : "not rising");
    *one = ledgers[1].receipts[77];
}

/* ---- reads */

/* A page of the entry ids of a ledger. */
static size_t page_of(bookie *b, uint64_t ledger, uint64_t from, uint64_t *found) {
    size_t n = 0;
    must("entries", bookie_entries(b, ledger, from, found, PAGE, &n), BOOKIE_PAGE);
    return n;
}

static void opened(bookie *b) {
    printf("opened %llu\n", (unsigned long long)bookie_limits(b)[0]);
}

/* Reads all entries of the ledgers in order, each page ahead, and prints how many there are and their SHA-256. */
static void read_all(bookie *b, const uint64_t *ledgers, size_t count) {
    uint64_t found[PAGE], sent[PAGE];
    uint8_t digest[32], key[16];
    size_t n, all = 0;
    sha256_state state;
    sha256_begin(&state);
    for (size_t l = 0; l < count; l++)
        for (uint64_t from = 0; (n = page_of(b, ledgers[l], from, found)) > 0; from = found[n - 1] + 1) {
            for (size_t i = 0; i < n; i++) sent[i] = bookie_send(b, BOOKIE_READ, (uint64_t[]){ledgers[l], found[i]}, NULL, 0);
            for (size_t i = 0; i < n; i++) {
                bookie_reply reply;
                must("read", bookie_wait(b, sent[i], &reply), BOOKIE_ENTRY);
                ids(reply.numbers[0], reply.numbers[1], key);
                sha256_add(&state, key, 16);
                sha256_add(&state, reply.bytes, reply.length);
                bookie_reply_free(&reply);
                all += 1;
            }
        }
    sha256_end(&state, digest);
    printf("read %zu ", all);
    for (int i = 0; i < 32; i++) printf("%02x", digest[i]);
    printf("\n");
}

static void print_ledgers(bookie *b) {
    uint64_t found[PAGE];
    size_t n;
    must("ledgers", bookie_ledgers(b, 0, found, PAGE, &n), BOOKIE_PAGE);
    printf("ledgers");
    for (size_t i = 0; i < n; i++) printf(" %llu", (unsigned long long)found[i]);
    printf("\n");
}

static void lists(bookie *b) {
    bookie_reply reply;
    uint64_t last[2] = {0, 0};
    must("last", bookie_last_entry(b, 1, &last[0]), BOOKIE_LAST);
    must("last", bookie_last_entry(b, 2, &last[1]), BOOKIE_LAST);
    int none = bookie_last_entry(b, 9, NULL) == BOOKIE_NOT_HELD;
    printf("last %llu %llu %s\n", (unsigned long long)last[0], (unsigned long long)last[1], none ? "none" : "some");
    print_ledgers(b);
    bookie_read_last(b, 1, &reply);
    printf("read last %s\n", yes(has(&reply, 1, COUNT - 1)));
    bookie_reply_free(&reply);
}

static void entries_and_reads(bookie *b) {
    bookie_receipt receipt;
    bookie_reply reply;
    opened(b);
    add_all(b, &receipt);
    must("flush", bookie_flush(b), BOOKIE_FLUSHED);
    read_all(b, (uint64_t[]){1, 2}, 2);
    lists(b);
    printf("holds %s %s %s\n", bookie_status_text(bookie_holds(b, 1, COUNT - 1)), bookie_status_text(bookie_holds(b, 1, COUNT)), bookie_status_text(bookie_holds(b, 9, 0)));
    bookie_read_back(b, &receipt, &reply);
    printf("read back %s\n", yes(has(&reply, 2, 77)));
    bookie_reply_free(&reply);
    receipt.entry = 78;
    printf("forged %s\n", refusal(bookie_read_back(b, &receipt, NULL)));
    const char *again = bookie_add(b, 1, 0, "other", 5, NULL) == BOOKIE_HELD ? "none" : "accepted";
    printf("again %s %s %s\n", again, yes(read_is(b, 1, 0)), bookie_read(b, 9, 0, NULL) == BOOKIE_NOT_HELD ? "none" : "some");
}

/* ---- ledgers and the store */

static void fences(bookie *b) {
    const char *first = yes(bookie_fence(b, 1) == BOOKIE_FENCED_NOW), *second = yes(bookie_fence(b, 1) == BOOKIE_FENCED_NOW);
    printf("fenced %s %s\n", first, second);
    printf("add %s ", refusal(bookie_add(b, 1, COUNT, "x", 1, NULL)));
    printf("recovery %s\n", refusal(bookie_add_recovery(b, 1, COUNT, "x", 1, NULL)));
    printf("negative %s\n", refusal(bookie_add(b, 1ull << 63, 0, "x", 1, NULL)));
}

static void attributes(bookie *b) {
    uint8_t key[20], lac[16];
    char text[3][600];
    bookie_reply reply[3];
    for (int i = 0; i < 20; i++) key[i] = (uint8_t)i;
    ids(4999, 0, lac);
    must("key", bookie_set_master_key(b, 1, key, 20), BOOKIE_STORED);
    must("lac", bookie_set_explicit_lac(b, 1, lac, 8), BOOKIE_STORED);
    bookie_master_key(b, 1, &reply[0]);
    bookie_explicit_lac(b, 1, &reply[1]);
    bookie_master_key(b, 2, &reply[2]);
    printf("attributes %s %s %s\n", hex(&reply[0], text[0]), hex(&reply[1], text[1]), hex(&reply[2], text[2]));
    for (int i = 0; i < 3; i++) bookie_reply_free(&reply[i]);
    const char *is_fenced = bookie_status_text(bookie_is_fenced(b, 1));
    printf("is fenced %s %s\n", is_fenced, bookie_status_text(bookie_is_fenced(b, 3)));
}

static void figures(bookie *b) {
    bookie_figures f;
    must("stats", bookie_stats(b, &f), BOOKIE_FIGURES);
    unsigned long long found[] = {f.front, f.cached, f.indexed, f.leases, f.failures};
    const char *within = yes(f.live <= f.bytes && f.durable <= f.front);
    printf("figures %llu %llu %llu %s %llu %llu\n", found[0], found[1], found[2], within, found[3], found[4]);
}

/* Seals logs of ten entries of 20 bytes, some of ledger 5 and the others of ledger 6. */
static void fill_logs(bookie *b) {
    uint8_t bytes[128];
    for (uint64_t log = 0; log < LOGS; log++) {
        size_t length = content(5, 100 * log, bytes);
        for (uint64_t e = 0; e < 10; e++)
            must("add", bookie_add(b, e < LIVE[log] ? 5 : 6, 100 * log + e, bytes, length, NULL), BOOKIE_ACCEPTED);
        must("seal", bookie_seal(b), BOOKIE_SEALED);
    }
}

static void print_compacted(bookie *b, const char *what, uint64_t minor, uint64_t major) {
    bookie_compacted done;
    must("compact", bookie_compact(b, minor, major, &done), BOOKIE_COMPACTED);
    printf("%s %llu %llu", what, (unsigned long long)done.logs, (unsigned long long)done.entries);
}

/* How many entries of ledger 5 are as they were added. */
static int count_copied(bookie *b) {
    uint64_t found[PAGE];
    uint8_t bytes[128];
    int right = 0;
    size_t n = page_of(b, 5, 0, found);
    for (size_t i = 0; i < n; i++) {
        bookie_reply reply;
        size_t length = content(5, found[i] - found[i] % 10, bytes);
        int status = bookie_read(b, 5, found[i], &reply);
        right += status == BOOKIE_ENTRY && reply.length == length && memcmp(reply.bytes, bytes, length) == 0;
        bookie_reply_free(&reply);
    }
    return right;
}

/* Each threshold takes the logs below it, 0 takes none, and entries are read from the copies. */
static void compactions(bookie *b) {
    bookie_figures before, after;
    bookie_seal(b);
    print_compacted(b, "compact", 200, 800);
    fill_logs(b);
    must("delete", bookie_delete(b, 6, NULL), BOOKIE_DROPPED);
    must("stats", bookie_stats(b, &before), BOOKIE_FIGURES);
    print_compacted(b, "\nomitted", 0, 0);
    print_compacted(b, "\nminor", 200, 0);
    print_compacted(b, " again", 200, 0);
    print_compacted(b, "\nmajor", 0, 800);
    print_compacted(b, " again", 0, 800);
    must("stats", bookie_stats(b, &after), BOOKIE_FIGURES);
    unsigned long long freed[] = {before.logs - after.logs, before.bytes - after.bytes, before.live, after.live};
    printf("\nfreed %llu %llu live %llu %llu\n", freed[0], freed[1], freed[2], freed[3]);
    printf("thresholds %s ", refusal(bookie_compact(b, 800, 200, NULL)));
    printf("%s ", refusal(bookie_compact(b, 2000, 0, NULL)));
    printf("%s\n", refusal(bookie_compact(b, 0, 200, NULL)));
    printf("copied %d\n", count_copied(b));
}

static uint64_t send_large(bookie *b, uint64_t entry) {
    static uint8_t bytes[300000];
    for (size_t i = 0; i < sizeof bytes; i++) bytes[i] = (uint8_t)(4 * 31 + entry * 7 + i);
    return bookie_send(b, BOOKIE_ADD, (uint64_t[]){4, entry}, bytes, sizeof bytes);
}

/* Large adds and large reads at once, all sent ahead: neither side may wait for the other. */
static void large_entries(bookie *b) {
    uint64_t added[2 * LARGE], sent[LARGE];
    uint8_t digest[32];
    int count = 0;
    sha256_state state;
    sha256_begin(&state);
    for (uint64_t e = 0; e < LARGE; e++) added[e] = send_large(b, e);
    for (int e = 0; e < LARGE; e++) count += bookie_wait(b, added[e], NULL) == BOOKIE_ACCEPTED;
    for (uint64_t e = 0; e < LARGE; e++) {
        sent[e] = bookie_send(b, BOOKIE_READ, (uint64_t[]){4, e}, NULL, 0);
        added[LARGE + e] = send_large(b, LARGE + e);
    }
    for (int e = 0; e < LARGE; e++) {
        bookie_reply reply;
        must("read", bookie_wait(b, sent[e], &reply), BOOKIE_ENTRY);
        sha256_add(&state, reply.bytes, reply.length);
        bookie_reply_free(&reply);
        count += bookie_wait(b, added[LARGE + e], NULL) == BOOKIE_ACCEPTED;
    }
    sha256_end(&state, digest);
    printf("large %d ", count);
    for (int i = 0; i < 32; i++) printf("%02x", digest[i]);
    printf("\n");
    bookie_delete(b, 4, NULL);
}

static void deletions_and_upkeep(bookie *b) {
    uint64_t dropped = 0, front = 0;
    must("delete", bookie_delete(b, 2, &dropped), BOOKIE_DROPPED);
    printf("deleted %llu %s ", (unsigned long long)dropped, refusal(bookie_delete(b, 2, NULL)));
    printf("%s ", refusal(bookie_read(b, 2, 0, NULL)));
    printf("%s\n", refusal(bookie_add(b, 2, 0, "x", 1, NULL)));
    printf("holds %s\n", bookie_status_text(bookie_holds(b, 2, 0)));
    compactions(b);
    large_entries(b);
    must("checkpoint", bookie_checkpoint(b, &front), BOOKIE_DURABLE);
    printf("durable %s\n", yes(front > 2 * COUNT));
    bookie_seal(b);
}

/* Adds to ledger 3, flushes after a thousand, and kills the server amid a thousand more. */
static void killed_session(bookie *b) {
    uint8_t bytes[128];
    uint64_t sent[1000];
    for (uint64_t e = 0; e < 1000; e++) must("add", bookie_add(b, 3, e, bytes, content(3, e, bytes), NULL), BOOKIE_ACCEPTED);
    must("flush", bookie_flush(b), BOOKIE_FLUSHED);
    for (uint64_t e = 0; e < 1000; e++) {
        size_t length = content(3, 1000 + e, bytes);
        sent[e] = bookie_send(b, BOOKIE_ADD, (uint64_t[]){3, 1000 + e}, bytes, length);
    }
    bookie_wait(b, sent[300], NULL);
    bookie_kill(b);
    for (int e = 0; e < 1000; e++) {
        int status = e == 300 ? BOOKIE_GONE : bookie_wait(b, sent[e], NULL);
        if (status != BOOKIE_ACCEPTED && status != BOOKIE_GONE) fail("add", status);
    }
    if (bookie_flush(b) == BOOKIE_GONE) printf("killed: later calls are refused\n");
    bookie_close(b);
}

static void last_session(bookie *b) {
    uint64_t found[PAGE];
    size_t n, all = 0;
    char text[2][600];
    bookie_reply key, lac;
    int is_published = 1, is_all_right = 1;
    opened(b);
    read_all(b, (uint64_t[]){1, 5}, 2);
    bookie_master_key(b, 1, &key);
    bookie_explicit_lac(b, 1, &lac);
    const char *is_fenced = bookie_status_text(bookie_is_fenced(b, 1));
    printf("fenced %s %s %s %s\n", is_fenced, refusal(bookie_read(b, 2, 0, NULL)), hex(&key, text[0]), hex(&lac, text[1]));
    bookie_reply_free(&key);
    bookie_reply_free(&lac);
    for (uint64_t from = 0; (n = page_of(b, 3, from, found)) > 0; from = found[n - 1] + 1)
        for (size_t i = 0; i < n; i++, all++) {
            is_published &= all >= 1000 || found[i] == all;
            is_all_right &= read_is(b, 3, found[i]);
        }
    printf("published %s right %s\n", yes(is_published && all >= 1000), yes(is_all_right));
    int status = WEXITSTATUS(bookie_close(b));
    printf("closed %d %d\n", status, status);
}

int main(int count, char **words) {
    if (count != 3) {
        fprintf(stderr, "usage: test_bookie SERVER DIR\n");
        return 2;
    }
    char *command[] = {words[1], words[2], NULL};
    bookie *b;
    must("open", bookie_open(command, &b), BOOKIE_WELCOME);
    entries_and_reads(b);
    fences(b);
    attributes(b);
    figures(b);
    deletions_and_upkeep(b);
    if (bookie_close(b) != 0) fail("close", BOOKIE_GONE);
    must("open", bookie_open(command, &b), BOOKIE_WELCOME);
    killed_session(b);
    must("open", bookie_open(command, &b), BOOKIE_WELCOME);
    last_session(b);
    char directory[4096];
    snprintf(directory, sizeof directory, "%s-ends", words[2]);
    test_ends((char *[]){words[1], directory, NULL});
    return 0;
}
