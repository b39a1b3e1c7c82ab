/* Uses a daemon by the client in C: usage: connects SOCKET. Prints what it found. */
#include "bookie.h"
#include <stdio.h>
#include <string.h>

#define COUNT 600

/* Adds entries ahead, and returns how many were accepted. */
static int add_ahead(bookie *b) {
    uint64_t ids[COUNT];
    int accepted = 0;
    for (uint64_t e = 0; e < COUNT; e++) ids[e] = bookie_send(b, BOOKIE_ADD, (uint64_t[]){7, e}, "hello", 5);
    for (size_t e = 0; e < COUNT; e++) accepted += bookie_wait(b, ids[e], NULL) == BOOKIE_ACCEPTED;
    return accepted;
}

int main(int count, char *words[]) {
    bookie *b, *other, *none;
    if (count != 2 || bookie_connect(words[1], &b) != BOOKIE_WELCOME || bookie_connect(words[1], &other) != BOOKIE_WELCOME) return 2;
    int accepted = add_ahead(b);
    bookie_reply reply;
    int found = bookie_read(b, 7, COUNT - 1, &reply), refused = bookie_read(other, UINT64_MAX, 0, NULL);
    printf("%d %s %.*s %s ", accepted, bookie_status_text(found), (int)reply.length, (char *)reply.bytes, bookie_status_text(refused));
    printf("%d %d\n", (int)bookie_unflushed(b), (int)bookie_pid(b));
    bookie_reply_free(&reply);
    /* A frame that is larger than what a socket takes at once, with replies to it on their way. */
    static char large[4 << 20];
    memset(large, 'x', sizeof large);
    uint64_t last = bookie_send(b, BOOKIE_ADD, (uint64_t[]){8, 0}, large, sizeof large);
    int is_read = bookie_wait(b, last, NULL) == BOOKIE_ACCEPTED && bookie_read(b, 8, 0, &reply) == BOOKIE_ENTRY;
    printf("%d ", is_read && reply.length == sizeof large && memcmp(reply.bytes, large, sizeof large) == 0);
    bookie_reply_free(&reply);
    int closed = bookie_close(b);
    bookie_kill(other);
    int after = bookie_read(other, 7, 0, NULL);
    printf("%d %s %d %s\n", closed, bookie_status_text(after), bookie_close(other), bookie_status_text(bookie_connect("none", &none)));
    return 0;
}
