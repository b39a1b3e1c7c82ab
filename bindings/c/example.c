/* A program with the client: example COMMAND.., the words of the server and its directory.
 *
 *     gcc -std=c11 -O2 -o example bindings/c/example.c bindings/c/bookie.c -lpthread && ./example ./bookie serve store
 *
 * A writer makes entries durable and crashes. Another one fences its ledger, so that the first cannot add any more, and adds what
 * is missing. Then the directory is opened again, and the ledger read. */
#include "bookie.h"
#include "sha256.h"
#include <inttypes.h>
#include <stdio.h>
#include <stdlib.h>
#include <string.h>

#define LEDGER 1
#define COUNT 3

static const char *const WRITTEN[COUNT] = {"first", "second", "third"};
static const char MISSING[] = "last";

/* Ends the program unless a call had the wanted status. */
static void expect(int status, int wanted, const char *what) {
    if (status == wanted) return;
    const char *kind = bookie_is_refusal(status) ? "refused" /* nothing changed, unless it is `disk`; the session goes on */
                       : status == BOOKIE_GONE   ? "ended"   /* the request took effect or not: open again, and read */
                                                 : "answered";
    fprintf(stderr, "%s: %s: %s\n", what, kind, bookie_status_text(status));
    exit(1);
}

static bookie *open_or_exit(char *command[]) {
    bookie *b;
    expect(bookie_open(command, &b), BOOKIE_WELCOME, "open");
    return b;
}

/* Flushes, ends the server and frees b; ends the program if not everything is durable. */
static void close_or_exit(bookie *b) {
    unsigned long long unflushed = bookie_unflushed(b);
    if (bookie_close(b) == 0) return;
    fprintf(stderr, "close: %llu entries may be lost\n", unflushed);
    exit(1);
}

/* The SHA-256 of an entry: its ids, eight bytes each, and its content. */
static void digest_of(uint64_t entry, const char *content, size_t length, uint8_t digest[32]) {
    uint8_t ids[16] = {[7] = LEDGER};
    for (int i = 0; i < 8; i++) ids[15 - i] = (uint8_t)(entry >> 8 * i);
    sha256_state state;
    sha256_begin(&state);
    sha256_add(&state, ids, sizeof ids);
    sha256_add(&state, (const uint8_t *)content, length);
    sha256_end(&state, digest);
}

typedef int add_call(bookie *b, uint64_t ledger, uint64_t entry, const void *content, size_t length, bookie_receipt *receipt);

/* Adds an entry, which is in memory until a flush is answered. The digest of its receipt is that of the entry. */
static bookie_receipt add(bookie *b, add_call *how, uint64_t entry, const char *content) {
    bookie_receipt receipt;
    size_t length = strlen(content);
    int status = how(b, LEDGER, entry, content, length, &receipt);
    if (status == BOOKIE_FULL || status == BOOKIE_MEMORY) {
        expect(bookie_flush(b), BOOKIE_FLUSHED, "flush");
        status = how(b, LEDGER, entry, content, length, &receipt);
    }
    /* BOOKIE_FENCED, BOOKIE_DELETED: never to be added; BOOKIE_DISK: after the device is mended; BOOKIE_HELD: it is there. */
    expect(status, BOOKIE_ACCEPTED, "add");
    uint8_t digest[32];
    digest_of(entry, content, length, digest);
    if (memcmp(digest, receipt.digest, sizeof digest) == 0) return receipt;
    fprintf(stderr, "entry %" PRIu64 " was accepted with other bytes\n", entry);
    exit(1);
}

/* Makes entries durable, and ends as a crash does: what was flushed stays. */
static void write_entries(char *command[]) {
    bookie *b = open_or_exit(command);
    bookie_receipt receipts[COUNT];
    for (size_t i = 0; i < COUNT; i++) receipts[i] = add(b, bookie_add, i, WRITTEN[i]);
    bookie_reply reply;
    expect(bookie_ask(b, BOOKIE_FLUSH, NULL, NULL, 0, &reply), BOOKIE_FLUSHED, "flush"); /* one for all: it waits for the device */
    printf("durable %" PRIu64 "\n", reply.numbers[0]);
    for (size_t i = 0; i < COUNT; i++) {
        expect(bookie_read_back(b, &receipts[i], &reply), BOOKIE_ENTRY, "read_back");
        int is_same = reply.length == strlen(WRITTEN[i]) && memcmp(reply.bytes, WRITTEN[i], reply.length) == 0;
        const uint8_t *d = receipts[i].digest;
        printf("receipt %zu %02x%02x%02x%02x %s\n", i, d[0], d[1], d[2], d[3], is_same ? "true" : "false");
        bookie_reply_free(&reply);
    }
    bookie_kill(b);
    bookie_close(b); /* frees it */
}

/* Takes the ledger over: fences it, and adds what is missing. */
static void recover(char *command[]) {
    bookie *b = open_or_exit(command);
    printf("fenced %s\n", bookie_fence(b, LEDGER) == BOOKIE_FENCED_NOW ? "true" : "false");
    uint64_t last;
    expect(bookie_last_entry(b, LEDGER, &last), BOOKIE_LAST, "last_entry");
    printf("refused %s\n", bookie_status_text(bookie_add(b, LEDGER, last + 1, "of the first writer", 19, NULL)));
    add(b, bookie_add_recovery, last + 1, MISSING);
    bookie_reply reply;
    expect(bookie_ask(b, BOOKIE_FLUSH, NULL, NULL, 0, &reply), BOOKIE_FLUSHED, "flush");
    printf("recovered %" PRIu64 " %" PRIu64 "\n", last + 1, reply.numbers[0]);
    close_or_exit(b);
}

/* Reads the ledger after opening the directory again. */
static void read_entries(char *command[]) {
    bookie *b = open_or_exit(command);
    uint64_t ids[16], from = 0;
    for (size_t count = 1; count > 0;) {
        expect(bookie_entries(b, LEDGER, from, ids, sizeof ids / sizeof ids[0], &count), BOOKIE_PAGE, "entries");
        for (size_t i = 0; i < count; i++, from = ids[i - 1] + 1) {
            bookie_reply reply;
            expect(bookie_read(b, LEDGER, ids[i], &reply), BOOKIE_ENTRY, "read");
            printf("entry %" PRIu64 " %.*s\n", ids[i], (int)reply.length, (const char *)reply.bytes);
            bookie_reply_free(&reply);
        }
    }
    printf("fenced %s\n", bookie_is_fenced(b, LEDGER) == BOOKIE_YES ? "true" : "false");
    close_or_exit(b);
}

int main(int count, char *words[]) {
    if (count < 2) return fputs("usage: example COMMAND..\n", stderr), 2;
    write_entries(words + 1);
    recover(words + 1);
    read_entries(words + 1);
    return 0;
}
