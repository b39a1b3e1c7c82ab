/* Client of `bk_serve`: see bookie.h. One thread reads replies and puts them into the table of requests. */
#define _GNU_SOURCE /* F_SETPIPE_SZ, POSIX_SPAWN_SETSID, SOCK_CLOEXEC */
#include "bookie.h"
#include <errno.h>
#include <fcntl.h>
#include <poll.h>
#include <pthread.h>
#include <signal.h>
#include <spawn.h>
#include <stdlib.h>
#include <string.h>
#include <sys/socket.h>
#include <sys/un.h>
#include <sys/wait.h>
#include <time.h>
#include <unistd.h>

#define LARGEST 5000064u
#define BUCKETS 4096u
#define GATHERED 8192u    /* so many bytes of requests are written together */
#define TOGETHER 64u      /* so many replies are put into the table together */
#define PIPE (1 << 20)    /* wanted size of the pipes; the system's own is a sixteenth */
#define MAGIC 0x424b53455256450aull
#define VERSION 1u
#define WAIT 10000u       /* milliseconds for which bookie_open tries to open a directory that is in use */
#define PAUSE 50u         /* before the second try; each pause is twice the one before, up to LONGEST */
#define LONGEST 1000u

extern char **environ;

/* A kind of frame: its code and name, how many numbers it has, and the least and most bytes after them. */
typedef struct {
    int code;
    const char *name;
    size_t numbers, least, most;
} kind;

static const kind CALLS[] = {
    {1, "hello", 3, 0, 0},
    {2, "add", 2, 0, 4999984},
    {3, "add_recovery", 2, 0, 4999984},
    {4, "read", 2, 0, 0},
    {5, "read_last", 1, 0, 0},
    {6, "read_back", 3, 32, 32},
    {7, "last_entry", 1, 0, 0},
    {8, "holds", 2, 0, 0},
    {9, "entries", 3, 0, 0},
    {10, "ledgers", 2, 0, 0},
    {11, "fence", 1, 0, 0},
    {12, "is_fenced", 1, 0, 0},
    {13, "delete", 1, 0, 0},
    {14, "set_master_key", 1, 0, 256},
    {15, "master_key", 1, 0, 0},
    {16, "set_explicit_lac", 1, 0, 256},
    {17, "explicit_lac", 1, 0, 0},
    {18, "flush", 0, 0, 0},
    {19, "checkpoint", 0, 0, 0},
    {20, "compact", 2, 0, 0},
    {21, "stats", 0, 0, 0},
    {22, "seal", 0, 0, 0},
    {23, "close", 0, 0, 0},
};

static const kind STATUSES[] = {
    {32, "welcome", 4, 0, 0},
    {33, "accepted", 1, 32, 32},
    {34, "held", 0, 0, 0},
    {35, "entry", 2, 0, 4999984},
    {36, "not_held", 0, 0, 0},
    {37, "last", 1, 0, 0},
    {38, "yes", 0, 0, 0},
    {39, "no", 0, 0, 0},
    {40, "page", 0, 0, 524288},
    {41, "fenced_now", 0, 0, 0},
    {42, "fenced_before", 0, 0, 0},
    {43, "dropped", 1, 0, 0},
    {44, "stored", 0, 0, 0},
    {45, "attribute", 0, 0, 256},
    {46, "no_attribute", 0, 0, 0},
    {47, "flushed", 1, 0, 0},
    {48, "durable", 1, 0, 0},
    {49, "compacted", 2, 0, 0},
    {50, "figures", 10, 0, 0},
    {51, "sealed", 1, 0, 0},
    {52, "nothing_open", 0, 0, 0},
    {53, "closed", 1, 0, 0},
    {64, "backwards", 2, 0, 0},
    {65, "negative", 0, 0, 0},
    {66, "too_long", 1, 0, 0},
    {67, "deleted", 0, 0, 0},
    {68, "fenced", 0, 0, 0},
    {69, "full", 2, 0, 0},
    {70, "memory", 0, 0, 0},
    {71, "no_seat", 0, 0, 0},
    {72, "too_many", 0, 0, 0},
    {73, "already_deleted", 0, 0, 0},
    {74, "missing", 1, 0, 0},
    {75, "differs", 0, 0, 0},
    {76, "not_there", 0, 0, 0},
    {77, "disk", 0, 0, 0},
    {78, "odd", 0, 0, 0},
    {79, "logs_full", 0, 0, 0},
    {80, "no_more_ids", 0, 0, 0},
    {81, "settings", 0, 0, 0},
    {82, "bad_log", 1, 0, 0},
    {83, "log_too_long", 1, 0, 0},
    {84, "in_use", 0, 0, 0},
    {85, "busy", 0, 0, 0},
    {86, "out_of_range", 0, 0, 0},
    {87, "no_thread", 0, 0, 0},
    {88, "not_offered", 0, 0, 0},
    {96, "no_hello", 0, 0, 0},
    {97, "version", 2, 0, 0},
    {98, "second_hello", 0, 0, 0},
    {99, "cut", 2, 0, 0},
    {100, "short", 1, 0, 0},
    {101, "oversized", 2, 0, 0},
    {102, "unknown_call", 1, 0, 0},
    {103, "bad_fields", 2, 0, 0},
    {104, "not_rising", 2, 0, 0},
    {105, "input_failed", 0, 0, 0},
    {106, "no_memory", 0, 0, 0},
};

static const kind *find(const kind *kinds, size_t count, int code) {
    for (size_t i = 0; i < count; i++)
        if (kinds[i].code == code) return &kinds[i];
    return NULL;
}
#define FIND(table, code) find(table, sizeof(table) / sizeof(table)[0], code)

/* A request that was sent and is not waited for yet. */
typedef struct request {
    uint64_t id;
    int is_answered;
    bookie_reply reply;
    struct request *next;
} request;

/* Bytes of replies that were read, from `at` to `end`. */
typedef struct {
    int file;
    size_t at, end;
    uint8_t bytes[65536];
} input;

/* Counts the entries that were accepted and that no answered flush covers, by the ids of requests. */
typedef struct {
    uint64_t all, after;               /* entries that were accepted: all, and those sent after the flush that was sent last */
    uint64_t accepted, covered, flush; /* the greatest ids of an accepted add, of an answered flush, and of a flush that was sent */
} unflushed;

struct bookie {
    pid_t child; /* the server, or 0 if it is a daemon's; then `out` and the file of `in` are one socket */
    int out;
    input in;
    pthread_t reader;
    pthread_mutex_t writing; /* of `held` and `held_count`; held while a request gets its id and is written; taken before `lock` */
    pthread_mutex_t lock;    /* of the rest; nobody holds it while a write blocks: so replies are always read */
    pthread_cond_t changed;
    request *table[BUCKETS];
    uint64_t last, limits[4];
    uint64_t written, answered; /* requests */
    size_t unanswered;
    unflushed unflushed;
    int is_over, is_ended, status;
    uint64_t held_count; /* requests that are held back, see bookie_send */
    size_t held_bytes;
    uint8_t held[2 * GATHERED];
};

/* ---- bytes */

static void put(uint8_t *out, uint64_t number, size_t bytes) {
    for (size_t i = 0; i < bytes; i++) out[i] = (uint8_t)(number >> 8 * (bytes - 1 - i));
}

static uint64_t get(const uint8_t *in, size_t bytes) {
    uint64_t number = 0;
    for (size_t i = 0; i < bytes; i++) number = number << 8 | in[i];
    return number;
}

/* Takes bytes of the replies, which it waits for. */
static int take(input *in, uint8_t *out, size_t length) {
    while (length > 0) {
        if (in->at == in->end) {
            int is_large = length >= sizeof in->bytes;
            ssize_t n = is_large ? read(in->file, out, length) : read(in->file, in->bytes, sizeof in->bytes);
            if (n < 0 && errno == EINTR) continue;
            if (n <= 0) return -1;
            in->at = 0;
            in->end = is_large ? 0 : (size_t)n;
            out += is_large ? n : 0;
            length -= is_large ? (size_t)n : 0;
            continue;
        }
        size_t n = in->end - in->at < length ? in->end - in->at : length;
        memcpy(out, in->bytes + in->at, n);
        in->at += n;
        out += n;
        length -= n;
    }
    return 0;
}

/* Whether the next reply is there as a whole. */
static int has_reply(const input *in) {
    size_t left = in->end - in->at;
    return left >= 4 && get(in->bytes + in->at, 4) <= left - 4;
}

/* Reads the next reply and its id. Returns -1 at the end, and if the bytes are no reply. */
static int read_reply(input *in, uint64_t *id, bookie_reply *reply) {
    uint8_t head[13], numbers[8 * BOOKIE_MOST_NUMBERS];
    if (take(in, head, sizeof head) < 0) return -1;
    size_t length = (size_t)get(head, 4);
    const kind *k = FIND(STATUSES, head[12]);
    if (length < 9 || length > LARGEST || k == NULL) return -1;
    if (length < 9 + 8 * k->numbers + k->least || length > 9 + 8 * k->numbers + k->most) return -1;
    memset(reply, 0, sizeof *reply);
    *id = get(head + 4, 8);
    reply->status = k->code;
    reply->length = length - 9 - 8 * k->numbers;
    if ((k->code == BOOKIE_PAGE && reply->length % 8 != 0) || take(in, numbers, 8 * k->numbers) < 0) return -1;
    for (size_t i = 0; i < k->numbers; i++) reply->numbers[i] = get(numbers + 8 * i, 8);
    if (reply->length == 0) return 0;
    reply->bytes = malloc(reply->length);
    if (reply->bytes == NULL || take(in, reply->bytes, reply->length) < 0) {
        bookie_reply_free(reply);
        return -1;
    }
    return 0;
}

/* ---- what is not flushed; the lock is held */

static void count_sent(unflushed *u, uint64_t id, int call) {
    if (call != BOOKIE_FLUSH && call != BOOKIE_CHECKPOINT && call != BOOKIE_SEAL && call != BOOKIE_CLOSE) return;
    u->flush = id;
    u->after = 0;
}

static uint64_t greater(uint64_t a, uint64_t b) {
    return a > b ? a : b;
}

static void count_answered(unflushed *u, uint64_t id, int status) {
    switch (status) {
    case BOOKIE_ACCEPTED:
        u->accepted = greater(u->accepted, id);
        u->all += id > u->covered;
        u->after += id > u->flush;
        break;
    case BOOKIE_FLUSHED:
    case BOOKIE_DURABLE:
    case BOOKIE_SEALED:
    case BOOKIE_NOTHING_OPEN:
    case BOOKIE_CLOSED:
        u->covered = greater(u->covered, id);
        if (id == u->flush) u->all = u->after;
        break;
    default:
        break;
    }
}

/* ---- the table of requests; the lock is held */

static request **at(bookie *b, uint64_t id) {
    request **place = &b->table[id % BUCKETS];
    while (*place != NULL && (*place)->id != id) place = &(*place)->next;
    return place;
}

/* Puts replies into the table. Returns how many, or fewer if one is of no request or ends the session. */
static size_t deliver(bookie *b, const uint64_t *ids, const bookie_reply *replies, size_t count) {
    size_t done = 0;
    pthread_mutex_lock(&b->lock);
    for (; done < count; done++) {
        request *r = *at(b, ids[done]);
        if (replies[done].status >= 96 || r == NULL || r->is_answered) break;
        r->reply = replies[done];
        r->is_answered = 1;
        count_answered(&b->unflushed, ids[done], replies[done].status);
    }
    b->unanswered -= done;
    b->answered += done;
    if (done < count && replies[done].status >= 96) b->status = replies[done].status;
    pthread_cond_broadcast(&b->changed);
    pthread_mutex_unlock(&b->lock);
    return done;
}

/* Writes what the pipe or socket has room for. A socket is read too, so it is not set to O_NONBLOCK, as the pipe is. */
static ssize_t write_some(const bookie *b, const uint8_t *bytes, size_t length) {
    return b->child > 0 ? write(b->out, bytes, length) : send(b->out, bytes, length, MSG_DONTWAIT | MSG_NOSIGNAL);
}

/* Writes bytes. Without `waits`, only those that there is room for. Returns how many were written; a write that fails counts,
 * since the reader then meets the end of the replies. */
static size_t write_bytes(const bookie *b, const uint8_t *bytes, size_t length, int waits) {
    size_t at = 0;
    while (at < length) {
        ssize_t n = write_some(b, bytes + at, length - at);
        if (n > 0) at += (size_t)n;
        else if (n < 0 && errno == EINTR) continue;
        else if (n < 0 && errno != EAGAIN) return length;
        else if (!waits) break;
        else poll(&(struct pollfd){b->out, POLLOUT, 0}, 1, -1);
    }
    return at;
}

/* Writes the requests that are held back. The caller has `writing`. */
static void write_held(bookie *b, int waits) {
    pthread_mutex_lock(&b->lock);
    b->written += b->held_count;
    pthread_mutex_unlock(&b->lock);
    b->held_count = 0;
    size_t n = write_bytes(b, b->held, b->held_bytes, waits);
    b->held_bytes -= n;
    memmove(b->held, b->held + n, b->held_bytes);
}

static void flush_held(bookie *b) {
    pthread_mutex_lock(&b->writing);
    write_held(b, 1);
    pthread_mutex_unlock(&b->writing);
}

/* Holds back bytes of a request, or writes them if they are too many. The caller has `writing`. */
static void hold(bookie *b, const void *bytes, size_t length) {
    if (length > sizeof b->held - b->held_bytes) write_held(b, 1);
    if (length > sizeof b->held) {
        write_bytes(b, bytes, length, 1);
    } else if (length > 0) {
        memcpy(b->held + b->held_bytes, bytes, length);
        b->held_bytes += length;
    }
}

/* Reads replies to the end of the session. */
static void *read_replies(void *handle) {
    bookie *b = handle;
    uint64_t ids[TOGETHER];
    bookie_reply replies[TOGETHER];
    for (int is_last = 0; !is_last;) {
        size_t count = 0;
        do is_last = read_reply(&b->in, &ids[count], &replies[count]) < 0;
        while (!is_last && ++count < TOGETHER && has_reply(&b->in));
        size_t done = deliver(b, ids, replies, count);
        is_last |= done < count;
        for (size_t i = done; i < count; i++) bookie_reply_free(&replies[i]);
        /* This thread waits for nobody who writes: whoever has `writing` looks for himself, in bookie_send. */
        if (pthread_mutex_trylock(&b->writing) == 0) {
            write_held(b, 0);
            pthread_mutex_unlock(&b->writing);
        }
    }
    pthread_mutex_lock(&b->lock);
    b->is_over = 1;
    pthread_cond_broadcast(&b->changed);
    pthread_mutex_unlock(&b->lock);
    return NULL;
}

/* Waits until the server takes a further request. What is held back has to be answered too. */
static void wait_for_room(bookie *b) {
    pthread_mutex_lock(&b->lock);
    if (!b->is_over && b->unanswered >= b->limits[2]) {
        pthread_mutex_unlock(&b->lock);
        flush_held(b);
        pthread_mutex_lock(&b->lock);
    }
    while (!b->is_over && b->unanswered >= b->limits[2]) pthread_cond_wait(&b->changed, &b->lock);
    b->unanswered += 1;
    pthread_mutex_unlock(&b->lock);
}

uint64_t bookie_send(bookie *b, int call, const uint64_t *numbers, const void *bytes, size_t length) {
    const kind *k = FIND(CALLS, call);
    if (k == NULL || length < k->least || length > k->most) return 0;
    size_t size = 13 + 8 * k->numbers;
    uint8_t head[13 + 8 * 3];
    request *r = calloc(1, sizeof *r);
    if (r == NULL) return 0;
    put(head, size - 4 + length, 4);
    head[12] = (uint8_t)call;
    for (size_t i = 0; i < k->numbers; i++) put(head + 13 + 8 * i, numbers[i], 8);
    wait_for_room(b);
    pthread_mutex_lock(&b->writing);
    pthread_mutex_lock(&b->lock);
    uint64_t id = r->id = ++b->last;
    *at(b, id) = r;
    count_sent(&b->unflushed, id, call);
    pthread_mutex_unlock(&b->lock);
    put(head + 4, id, 8);
    b->held_count += 1;
    hold(b, head, size);
    hold(b, bytes, length);
    int is_much = b->held_bytes >= GATHERED;
    pthread_mutex_unlock(&b->writing);
    /* After the unlock, so that the reader or this thread sees that nothing is on its way. */
    pthread_mutex_lock(&b->lock);
    int is_idle = b->written == b->answered;
    pthread_mutex_unlock(&b->lock);
    if (is_much || is_idle) flush_held(b);
    return id;
}

int bookie_wait(bookie *b, uint64_t id, bookie_reply *reply) {
    bookie_reply got = {.status = BOOKIE_INVALID};
    pthread_mutex_lock(&b->lock);
    request **place = at(b, id), *r = *place;
    if (r != NULL) {
        if (!r->is_answered) {
            pthread_mutex_unlock(&b->lock);
            flush_held(b);
            pthread_mutex_lock(&b->lock);
        }
        while (!r->is_answered && !b->is_over) pthread_cond_wait(&b->changed, &b->lock);
        got = r->reply;
        if (!r->is_answered) got.status = BOOKIE_GONE;
        place = at(b, id);
        *place = r->next;
        free(r);
    }
    pthread_mutex_unlock(&b->lock);
    int status = got.status;
    if (reply != NULL) *reply = got;
    else bookie_reply_free(&got);
    return status;
}

int bookie_ask(bookie *b, int call, const uint64_t *numbers, const void *bytes, size_t length, bookie_reply *reply) {
    return bookie_wait(b, bookie_send(b, call, numbers, bytes, length), reply);
}

void bookie_reply_free(bookie_reply *reply) {
    free(reply->bytes);
    reply->bytes = NULL;
    reply->length = 0;
}

const char *bookie_status_text(int status) {
    const kind *k = FIND(STATUSES, status);
    return k != NULL ? k->name : status == BOOKIE_GONE ? "gone" : status == BOOKIE_INVALID ? "invalid" : "unknown";
}

const uint64_t *bookie_limits(const bookie *b) {
    return b->limits;
}

pid_t bookie_pid(const bookie *b) {
    return b->child;
}

uint64_t bookie_unflushed(bookie *b) {
    pthread_mutex_lock(&b->lock);
    uint64_t count = b->unflushed.accepted > b->unflushed.covered ? b->unflushed.all : 0;
    pthread_mutex_unlock(&b->lock);
    return count;
}

/* ---- start and end */

/* Gives a file a number above those of the standard streams, and closes it in programs that are started. */
static int lift(int file) {
    int lifted = fcntl(file, F_DUPFD_CLOEXEC, 3);
    close(file);
    return lifted;
}

/* Makes a pipe whose ends are no standard streams, as they could be in a process that has none. */
static int make_pipe(int ends[2]) {
    if (pipe(ends) < 0) return -1;
    ends[0] = lift(ends[0]);
    ends[1] = lift(ends[1]);
    if (ends[0] >= 0 && ends[1] >= 0) return 0;
    close(ends[0]);
    close(ends[1]);
    return -1;
}

/* Starts the server with these standard streams, apart from the group of this process. */
static int spawn(bookie *b, char *const command[], int in, int out) {
    posix_spawn_file_actions_t actions;
    posix_spawnattr_t attributes;
    posix_spawn_file_actions_init(&actions);
    posix_spawn_file_actions_adddup2(&actions, in, 0);
    posix_spawn_file_actions_adddup2(&actions, out, 1);
    /* Else a file of the directory would be the server's error stream. */
    if (fcntl(2, F_GETFD) < 0) posix_spawn_file_actions_addopen(&actions, 2, "/dev/null", O_WRONLY, 0);
    posix_spawnattr_init(&attributes);
#ifdef POSIX_SPAWN_SETSID
    posix_spawnattr_setflags(&attributes, POSIX_SPAWN_SETSID);
#else
    posix_spawnattr_setflags(&attributes, POSIX_SPAWN_SETPGROUP);
    posix_spawnattr_setpgroup(&attributes, 0);
#endif
    int failed = posix_spawnp(&b->child, command[0], &actions, &attributes, command, environ);
    posix_spawnattr_destroy(&attributes);
    posix_spawn_file_actions_destroy(&actions);
    return failed ? -1 : 0;
}

/* Starts the server with two pipes. */
static int start(bookie *b, char *const command[]) {
    int to[2], from[2];
    if (make_pipe(to) < 0) return -1;
    if (make_pipe(from) < 0) {
        close(to[0]);
        close(to[1]);
        return -1;
    }
    fcntl(to[1], F_SETFL, O_NONBLOCK);
#ifdef F_SETPIPE_SZ
    (void)fcntl(to[1], F_SETPIPE_SZ, PIPE);
    (void)fcntl(from[1], F_SETPIPE_SZ, PIPE);
#endif
    int failed = spawn(b, command, to[0], from[1]);
    close(to[0]);
    close(from[1]);
    b->in.file = from[0];
    b->out = to[1];
    if (failed) {
        close(b->in.file);
        close(b->out);
    }
    return failed;
}

/* Connects to the daemon at a path. Its socket has two numbers: one is closed before the other. */
static int reach(bookie *b, const char *path) {
    struct sockaddr_un address = {.sun_family = AF_UNIX};
    if (strlen(path) >= sizeof address.sun_path) return -1;
    memcpy(address.sun_path, path, strlen(path) + 1);
    b->in.file = lift(socket(AF_UNIX, SOCK_STREAM | SOCK_CLOEXEC, 0));
    if (b->in.file < 0) return -1;
    b->out = fcntl(b->in.file, F_DUPFD_CLOEXEC, 3);
    if (b->out >= 0 && connect(b->in.file, (struct sockaddr *)&address, sizeof address) == 0) return 0;
    close(b->in.file);
    close(b->out);
    return -1;
}

static void let_go(bookie *b) {
    for (size_t i = 0; i < BUCKETS; i++)
        while (b->table[i] != NULL) {
            request *r = b->table[i];
            b->table[i] = r->next;
            bookie_reply_free(&r->reply);
            free(r);
        }
    pthread_cond_destroy(&b->changed);
    pthread_mutex_destroy(&b->lock);
    pthread_mutex_destroy(&b->writing);
    free(b);
}

/* Ends the input of the server. */
static void end_input(bookie *b) {
    if (b->child == 0) shutdown(b->out, SHUT_WR);
    close(b->out);
    b->out = -1; /* so that a later write fails */
}

/* Waits for the server, if it is a child. */
static void wait_for_child(bookie *b) {
    while (b->child > 0 && waitpid(b->child, &b->status, 0) < 0 && errno == EINTR) continue;
}

/* Ends the session. A second call does nothing. */
static void end(bookie *b) {
    if (b->is_ended) return;
    b->is_ended = 1;
    pthread_mutex_lock(&b->writing);
    end_input(b);
    pthread_mutex_unlock(&b->writing);
    wait_for_child(b);
    pthread_join(b->reader, NULL);
    close(b->in.file);
}

/* Starts the server with this command, or connects to the daemon at this path. */
static int open_once(char *const command[], const char *path, bookie **out) {
    bookie *b = calloc(1, sizeof *b);
    if (b == NULL) return BOOKIE_INVALID;
    b->limits[2] = 1;
    pthread_mutex_init(&b->lock, NULL);
    pthread_mutex_init(&b->writing, NULL);
    pthread_cond_init(&b->changed, NULL);
    if ((path != NULL ? reach(b, path) : start(b, command)) < 0) {
        let_go(b);
        return BOOKIE_GONE;
    }
    if (pthread_create(&b->reader, NULL, read_replies, b) != 0) {
        end_input(b);
        wait_for_child(b);
        close(b->in.file);
        let_go(b);
        return BOOKIE_GONE;
    }
    bookie_reply welcome;
    uint64_t numbers[3] = {MAGIC, VERSION, VERSION};
    int status = bookie_ask(b, BOOKIE_HELLO, numbers, NULL, 0, &welcome);
    if (status != BOOKIE_WELCOME) {
        if (status == BOOKIE_GONE && b->status >= 96) status = b->status;
        bookie_reply_free(&welcome);
        end(b);
        let_go(b);
        return status;
    }
    memcpy(b->limits, welcome.numbers, sizeof b->limits);
    *out = b;
    return status;
}

/* Milliseconds of a clock that only rises. */
static uint64_t now(void) {
    struct timespec at;
    clock_gettime(CLOCK_MONOTONIC, &at);
    return (uint64_t)at.tv_sec * 1000 + (uint64_t)at.tv_nsec / 1000000;
}

static int open_within(char *const command[], const char *path, unsigned milliseconds, bookie **out) {
    *out = NULL;
    uint64_t until = now() + milliseconds;
    for (uint64_t pause = PAUSE;; pause = pause < LONGEST / 2 ? 2 * pause : LONGEST) {
        int status = open_once(command, path, out);
        if (status != BOOKIE_IN_USE || now() + pause > until) return status;
        nanosleep(&(struct timespec){(time_t)(pause / 1000), (long)(pause % 1000 * 1000000)}, NULL);
    }
}

int bookie_open_within(char *const command[], unsigned milliseconds, bookie **out) {
    signal(SIGPIPE, SIG_IGN);
    return open_within(command, NULL, milliseconds, out);
}

int bookie_open(char *const command[], bookie **out) {
    return bookie_open_within(command, WAIT, out);
}

int bookie_connect(const char *path, bookie **out) {
    return open_within(NULL, path, WAIT, out);
}

int bookie_close(bookie *b) {
    int answer = b->is_ended ? BOOKIE_GONE : bookie_ask(b, BOOKIE_CLOSE, NULL, NULL, 0, NULL);
    end(b);
    /* Without memory for the request the server meets the end of its input, and its exit status says whether it flushed. */
    int is_durable = answer == BOOKIE_CLOSED || (answer == BOOKIE_INVALID && b->child > 0);
    int status = !is_durable && (b->status == 0 || b->child == 0) ? -1 : b->status;
    let_go(b);
    return status;
}

void bookie_kill(bookie *b) {
    if (b->child > 0) kill(b->child, SIGKILL);
    else shutdown(b->in.file, SHUT_RDWR);
    end(b);
}

/* ---- calls that wait */

static int ask_ledger(bookie *b, int call, uint64_t ledger, bookie_reply *reply) {
    return bookie_ask(b, call, &ledger, NULL, 0, reply);
}

/* Asks, and writes the first number of the reply if it has the wanted status. */
static int ask_number(bookie *b, int call, const uint64_t *numbers, int wanted, uint64_t *number) {
    bookie_reply reply;
    int status = bookie_ask(b, call, numbers, NULL, 0, &reply);
    if (status == wanted && number != NULL) *number = reply.numbers[0];
    bookie_reply_free(&reply);
    return status;
}

static int add(bookie *b, int call, uint64_t ledger, uint64_t entry, const void *content, size_t length, bookie_receipt *receipt) {
    bookie_reply reply;
    int status = bookie_ask(b, call, (uint64_t[]){ledger, entry}, content, length, &reply);
    if (status == BOOKIE_ACCEPTED && receipt != NULL) {
        *receipt = (bookie_receipt){.number = reply.numbers[0], .ledger = ledger, .entry = entry};
        memcpy(receipt->digest, reply.bytes, sizeof receipt->digest);
    }
    bookie_reply_free(&reply);
    return status;
}

int bookie_add(bookie *b, uint64_t ledger, uint64_t entry, const void *content, size_t length, bookie_receipt *receipt) {
    return add(b, BOOKIE_ADD, ledger, entry, content, length, receipt);
}

int bookie_add_recovery(bookie *b, uint64_t ledger, uint64_t entry, const void *content, size_t length, bookie_receipt *receipt) {
    return add(b, BOOKIE_ADD_RECOVERY, ledger, entry, content, length, receipt);
}

int bookie_read(bookie *b, uint64_t ledger, uint64_t entry, bookie_reply *reply) {
    return bookie_ask(b, BOOKIE_READ, (uint64_t[]){ledger, entry}, NULL, 0, reply);
}

int bookie_read_last(bookie *b, uint64_t ledger, bookie_reply *reply) {
    return ask_ledger(b, BOOKIE_READ_LAST, ledger, reply);
}

int bookie_read_back(bookie *b, const bookie_receipt *r, bookie_reply *reply) {
    return bookie_ask(b, BOOKIE_READ_BACK, (uint64_t[]){r->number, r->ledger, r->entry}, r->digest, sizeof r->digest, reply);
}

int bookie_last_entry(bookie *b, uint64_t ledger, uint64_t *entry) {
    return ask_number(b, BOOKIE_LAST_ENTRY, &ledger, BOOKIE_LAST, entry);
}

int bookie_holds(bookie *b, uint64_t ledger, uint64_t entry) {
    return ask_number(b, BOOKIE_HOLDS, (uint64_t[]){ledger, entry}, BOOKIE_YES, NULL);
}

int bookie_is_fenced(bookie *b, uint64_t ledger) {
    return ask_ledger(b, BOOKIE_IS_FENCED, ledger, NULL);
}

static int page(bookie *b, int call, const uint64_t *numbers, uint64_t *ids, size_t most, size_t *count) {
    bookie_reply reply;
    int status = bookie_ask(b, call, numbers, NULL, 0, &reply);
    *count = status == BOOKIE_PAGE ? reply.length / 8 : 0;
    if (*count > most) *count = most;
    for (size_t i = 0; i < *count; i++) ids[i] = get(reply.bytes + 8 * i, 8);
    bookie_reply_free(&reply);
    return status;
}

int bookie_entries(bookie *b, uint64_t ledger, uint64_t from, uint64_t *ids, size_t most, size_t *count) {
    return page(b, BOOKIE_ENTRIES, (uint64_t[]){ledger, from, most}, ids, most, count);
}

int bookie_ledgers(bookie *b, uint64_t from, uint64_t *ids, size_t most, size_t *count) {
    return page(b, BOOKIE_LEDGERS, (uint64_t[]){from, most}, ids, most, count);
}

int bookie_fence(bookie *b, uint64_t ledger) {
    return ask_ledger(b, BOOKIE_FENCE, ledger, NULL);
}

int bookie_delete(bookie *b, uint64_t ledger, uint64_t *entries) {
    return ask_number(b, BOOKIE_DELETE, &ledger, BOOKIE_DROPPED, entries);
}

int bookie_set_master_key(bookie *b, uint64_t ledger, const void *key, size_t length) {
    return bookie_ask(b, BOOKIE_SET_MASTER_KEY, &ledger, key, length, NULL);
}

int bookie_master_key(bookie *b, uint64_t ledger, bookie_reply *reply) {
    return ask_ledger(b, BOOKIE_MASTER_KEY, ledger, reply);
}

int bookie_set_explicit_lac(bookie *b, uint64_t ledger, const void *lac, size_t length) {
    return bookie_ask(b, BOOKIE_SET_EXPLICIT_LAC, &ledger, lac, length, NULL);
}

int bookie_explicit_lac(bookie *b, uint64_t ledger, bookie_reply *reply) {
    return ask_ledger(b, BOOKIE_EXPLICIT_LAC, ledger, reply);
}

int bookie_flush(bookie *b) {
    return bookie_ask(b, BOOKIE_FLUSH, NULL, NULL, 0, NULL);
}

int bookie_checkpoint(bookie *b, uint64_t *front) {
    return ask_number(b, BOOKIE_CHECKPOINT, NULL, BOOKIE_DURABLE, front);
}

int bookie_compact(bookie *b, uint64_t minor, uint64_t major, bookie_compacted *done) {
    bookie_reply reply;
    int status = bookie_ask(b, BOOKIE_COMPACT, (uint64_t[]){minor, major}, NULL, 0, &reply);
    if (status == BOOKIE_COMPACTED && done != NULL) *done = (bookie_compacted){reply.numbers[0], reply.numbers[1]};
    return status;
}

int bookie_stats(bookie *b, bookie_figures *figures) {
    bookie_reply reply;
    int status = bookie_ask(b, BOOKIE_STATS, NULL, NULL, 0, &reply);
    const uint64_t *n = reply.numbers;
    if (status == BOOKIE_FIGURES) *figures = (bookie_figures){n[0], n[1], n[2], n[3], n[4], n[5], n[6], n[7], n[8], n[9]};
    return status;
}

int bookie_seal(bookie *b) {
    return bookie_ask(b, BOOKIE_SEAL, NULL, NULL, 0, NULL);
}
