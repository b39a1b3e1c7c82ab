// The client of a session of the server, in the guest of ./dev power.
//
// /tmp/steps has a line for each group of requests: their frames, in hexadecimal. A group is sent
// when each request of the one before has its reply. Then `replies NUMBER GROUP` is reported, with
// the bytes of the replies. The server's input ends after the last group.
#define _GNU_SOURCE
#include "power_guest.h"
#include <fcntl.h>
#include <signal.h>
#include <stdio.h>
#include <stdlib.h>
#include <string.h>
#include <unistd.h>

// A pipe takes a whole group: the host makes no longer one.
enum { PIPE = 1 << 20 };

// The number of whole frames: a length of four bytes, and so many bytes.
static size_t frames_in(const char *bytes, size_t length) {
    const unsigned char *it = (const unsigned char *)bytes;
    size_t count = 0, at = 0;
    while (length - at >= 4) {
        size_t size = (size_t)it[at] << 24 | it[at + 1] << 16 | it[at + 2] << 8 | it[at + 3];
        if (length - at - 4 < size)
            break;
        at += 4 + size;
        count++;
    }
    return count;
}

static int digit(char it) { return it <= '9' ? it - '0' : it - 'a' + 10; }

// Turns a line of hexadecimal digits into bytes. Returns their number.
static size_t decode(char *line, size_t length) {
    size_t count = 0;
    for (; 2 * count + 1 < length && line[2 * count] != '\n'; count++)
        line[count] = digit(line[2 * count]) << 4 | digit(line[2 * count + 1]);
    return count;
}

// Starts the server with pipes for its input and its output. Returns the process.
static int start(char **words, int *in, int *out, int err) {
    int input[2], output[2];
    if (pipe2(input, O_CLOEXEC) || pipe2(output, O_CLOEXEC) || fcntl(input[0], F_SETPIPE_SZ, PIPE) < PIPE ||
        fcntl(output[0], F_SETPIPE_SZ, PIPE) < PIPE)
        stop("pipe");
    int child = fork();
    if (child < 0)
        stop("fork");
    if (!child) {
        dup2(input[0], 0), dup2(output[1], 1), dup2(err, 2);
        execv(words[0], words);
        _exit(127);
    }
    close(input[0]), close(output[1]);
    *in = input[1], *out = output[0];
    return child;
}

// Sends a group and reads its replies. Returns them, fewer than its requests if the server ended.
static struct bytes replies_to(const char *group, size_t length, int in, int out) {
    struct bytes found = area();
    char piece[1 << 16];
    long got;
    if (write(in, group, length) != (long)length)
        return found;
    while (frames_in(found.at, found.length) < frames_in(group, length) && (got = read(out, piece, sizeof piece)) > 0)
        add(&found, piece, got, 1);
    return found;
}

int serve(char **words, const char *number, int err) {
    int in, out, child = start(words, &in, &out, err), is_there = 1;
    char *line = NULL, text[64];
    size_t room = 0;
    FILE *steps = fopen("/tmp/steps", "r");
    if (!steps)
        stop("/tmp/steps");
    signal(SIGPIPE, SIG_IGN);
    for (int group = 0; is_there && getline(&line, &room, steps) > 0; group++) {
        size_t length = decode(line, strlen(line));
        struct bytes found = replies_to(line, length, in, out);
        is_there = frames_in(found.at, found.length) >= frames_in(line, length);
        snprintf(text, sizeof text, "replies %s %d", number, group);
        report(found, text);
    }
    close(in);
    struct bytes rest = area();
    add_rest(&rest, out);
    return status_of(child);
}
