/* Client of `bk_serve` (../protocol.md): one directory, served by a child process, or by a daemon (`bookie_connect`). C11 and POSIX.
 *
 *     bookie *b;
 *     char *command[] = {"bk_serve", "/var/bookie", NULL};
 *     if (bookie_open(command, &b) != BOOKIE_WELCOME) ..
 *     uint64_t id = bookie_send(b, BOOKIE_ADD, (uint64_t[]){1, 0}, "hello", 5);   // ahead, from any thread
 *     bookie_reply reply;
 *     if (bookie_wait(b, id, &reply) == BOOKIE_ACCEPTED) ..
 *     bookie_reply_free(&reply);
 *     if (bookie_close(b) != 0) ..                                                // in order; frees b
 *
 * Each request that was sent is waited for once, by one thread, or is left to bookie_close. SIGPIPE must be ignored, as
 * bookie_open sees to. The values of statuses are those of the protocol; BOOKIE_GONE and BOOKIE_INVALID are the client's own.
 *
 * BOOKIE_ACCEPTED is worth memory: what is not flushed is lost if the server is killed. README.md, Signals, says what ends it.
 */
#ifndef BOOKIE_H
#define BOOKIE_H
#include <stddef.h>
#include <stdint.h>
#include <sys/types.h>
#ifdef __cplusplus
extern "C" {
#endif

/* Calls of requests: their numbers, then the bytes after them. */
enum bookie_call {
    BOOKIE_HELLO = 1, /* magic, lowest, highest */
    BOOKIE_ADD = 2, /* ledger, entry, content */
    BOOKIE_ADD_RECOVERY = 3, /* ledger, entry, content */
    BOOKIE_READ = 4, /* ledger, entry */
    BOOKIE_READ_LAST = 5, /* ledger */
    BOOKIE_READ_BACK = 6, /* number, ledger, entry, digest */
    BOOKIE_LAST_ENTRY = 7, /* ledger */
    BOOKIE_HOLDS = 8, /* ledger, entry */
    BOOKIE_ENTRIES = 9, /* ledger, from, most */
    BOOKIE_LEDGERS = 10, /* from, most */
    BOOKIE_FENCE = 11, /* ledger */
    BOOKIE_IS_FENCED = 12, /* ledger */
    BOOKIE_DELETE = 13, /* ledger */
    BOOKIE_SET_MASTER_KEY = 14, /* ledger, key */
    BOOKIE_MASTER_KEY = 15, /* ledger */
    BOOKIE_SET_EXPLICIT_LAC = 16, /* ledger, lac */
    BOOKIE_EXPLICIT_LAC = 17, /* ledger */
    BOOKIE_FLUSH = 18, /* no fields */
    BOOKIE_CHECKPOINT = 19, /* no fields */
    BOOKIE_COMPACT = 20, /* minor, major */
    BOOKIE_STATS = 21, /* no fields */
    BOOKIE_SEAL = 22, /* no fields */
    BOOKIE_CLOSE = 23, /* no fields */
};

/* Statuses of replies: from 32 what was done, from 64 why a request was refused, from 96 why the session ended. */
enum bookie_status {
    BOOKIE_WELCOME = 32, /* version, largest, in_flight, page */
    BOOKIE_ACCEPTED = 33, /* number, digest */
    BOOKIE_HELD = 34, /* no fields */
    BOOKIE_ENTRY = 35, /* ledger, entry, content */
    BOOKIE_NOT_HELD = 36, /* no fields */
    BOOKIE_LAST = 37, /* entry */
    BOOKIE_YES = 38, /* no fields */
    BOOKIE_NO = 39, /* no fields */
    BOOKIE_PAGE = 40, /* ids */
    BOOKIE_FENCED_NOW = 41, /* no fields */
    BOOKIE_FENCED_BEFORE = 42, /* no fields */
    BOOKIE_DROPPED = 43, /* entries */
    BOOKIE_STORED = 44, /* no fields */
    BOOKIE_ATTRIBUTE = 45, /* value */
    BOOKIE_NO_ATTRIBUTE = 46, /* no fields */
    BOOKIE_FLUSHED = 47, /* entries */
    BOOKIE_DURABLE = 48, /* front */
    BOOKIE_COMPACTED = 49, /* logs, entries */
    BOOKIE_FIGURES = 50, /* logs, bytes, live, cached, indexed, durable, next_log, front, leases, failures */
    BOOKIE_SEALED = 51, /* log */
    BOOKIE_NOTHING_OPEN = 52, /* no fields */
    BOOKIE_CLOSED = 53, /* front */
    BOOKIE_BACKWARDS = 64, /* seen, front */
    BOOKIE_NEGATIVE = 65, /* no fields */
    BOOKIE_TOO_LONG = 66, /* length */
    BOOKIE_DELETED = 67, /* no fields */
    BOOKIE_FENCED = 68, /* no fields */
    BOOKIE_FULL = 69, /* used, limit */
    BOOKIE_MEMORY = 70, /* no fields */
    BOOKIE_NO_SEAT = 71, /* no fields */
    BOOKIE_TOO_MANY = 72, /* no fields */
    BOOKIE_ALREADY_DELETED = 73, /* no fields */
    BOOKIE_MISSING = 74, /* front */
    BOOKIE_DIFFERS = 75, /* no fields */
    BOOKIE_NOT_THERE = 76, /* no fields */
    BOOKIE_DISK = 77, /* no fields */
    BOOKIE_ODD = 78, /* no fields */
    BOOKIE_LOGS_FULL = 79, /* no fields */
    BOOKIE_NO_MORE_IDS = 80, /* no fields */
    BOOKIE_SETTINGS = 81, /* no fields */
    BOOKIE_BAD_LOG = 82, /* log */
    BOOKIE_LOG_TOO_LONG = 83, /* log */
    BOOKIE_IN_USE = 84, /* no fields */
    BOOKIE_BUSY = 85, /* no fields */
    BOOKIE_OUT_OF_RANGE = 86, /* no fields */
    BOOKIE_NO_THREAD = 87, /* no fields */
    BOOKIE_NOT_OFFERED = 88, /* no fields */
    BOOKIE_NO_HELLO = 96, /* no fields */
    BOOKIE_VERSION = 97, /* lowest, highest */
    BOOKIE_SECOND_HELLO = 98, /* no fields */
    BOOKIE_CUT = 99, /* length, read */
    BOOKIE_SHORT = 100, /* length */
    BOOKIE_OVERSIZED = 101, /* length, largest */
    BOOKIE_UNKNOWN_CALL = 102, /* call */
    BOOKIE_BAD_FIELDS = 103, /* call, length */
    BOOKIE_NOT_RISING = 104, /* next, previous */
    BOOKIE_INPUT_FAILED = 105, /* no fields */
    BOOKIE_NO_MEMORY = 106, /* no fields */
};

enum bookie_own_status {
    BOOKIE_GONE = -1,   /* the session ended before the reply; whether the request took effect is open */
    BOOKIE_INVALID = -2 /* no such request: wrong fields, out of memory, or an id that is not waited for */
};

typedef struct bookie bookie; /* opaque */

#define BOOKIE_MOST_NUMBERS 10 /* no reply has more numbers */

typedef struct {
    int status;                            /* of enum bookie_status, or BOOKIE_GONE, BOOKIE_INVALID */
    uint64_t numbers[BOOKIE_MOST_NUMBERS]; /* in the order of the protocol's page */
    uint8_t *bytes;                        /* the bytes after them, length of them; bookie_reply_free frees them */
    size_t length;
} bookie_reply;

typedef struct {
    uint64_t number, ledger, entry;
    uint8_t digest[32];
} bookie_receipt;

/* The store in numbers; protocol.md has what each counts. */
typedef struct {
    uint64_t logs, bytes, live, cached, indexed, durable, next_log, front, leases, failures;
} bookie_figures;

/* What a compaction did: logs removed, entries copied. */
typedef struct {
    uint64_t logs, entries;
} bookie_compacted;

/* Starts the server, a list of words that ends with NULL, and opens its directory. Returns BOOKIE_WELCOME, or why it
 * failed; *out is NULL then. While another process has the directory, as a predecessor that still flushes, it is opened again
 * for ten seconds; then it returns BOOKIE_IN_USE.
 *
 * The server gets a session of the system of its own, or a process group where the system's posix_spawn has no sessions: so a
 * signal to the group of this process, as ^C sends, does not end it before this client closes. This process needs no standard
 * streams: where it has no error stream, the server's is /dev/null. */
int bookie_open(char *const command[], bookie **out);
/* The same with another time, which may be 0. */
int bookie_open_within(char *const command[], unsigned milliseconds, bookie **out);

/* Opens a session with a daemon (../../tools/daemon) by the path of its socket. Returns as bookie_open; BOOKIE_GONE if no daemon
 * answers there, and BOOKIE_IN_USE if it had as many clients as it takes for ten seconds.
 *
 * The calls are the same. bookie_close flushes and ends this session, not the server: it returns 0, or -1 if the daemon did not say that
 * everything is durable. bookie_kill ends it without waiting for the flush. */
int bookie_connect(const char *path, bookie **out);

/* The process id of the server, or 0 if it is a daemon's. */
pid_t bookie_pid(const bookie *b);

/* The limits of the session: version, largest frame, requests in flight, ids of a page. */
const uint64_t *bookie_limits(const bookie *b);

/* Sends a request with the numbers of its call and these bytes. Blocks while the server has as many unanswered as it takes.
 * Returns the id to wait for, or 0 if these are not the fields of the call or memory is short.
 *
 * A request is written at once if no other one is on its way. Else it may be held back until 8 KiB have gathered, a thread waits for
 * a reply, or the next replies come, so that many are written together. */
uint64_t bookie_send(bookie *b, int call, const uint64_t *numbers, const void *bytes, size_t length);

/* Waits for the reply of a request, and returns its status. `reply` may be NULL. */
int bookie_wait(bookie *b, uint64_t id, bookie_reply *reply);

/* Sends a request and waits for its reply. */
int bookie_ask(bookie *b, int call, const uint64_t *numbers, const void *bytes, size_t length, bookie_reply *reply);

void bookie_reply_free(bookie_reply *reply);

/* The name of a status on the protocol's page; "gone", "invalid" or "unknown" for others. */
const char *bookie_status_text(int status);

/* Whether a request was refused for this reason. */
static inline int bookie_is_refusal(int status) {
    return status >= 64 && status < 96;
}

/* ---- Calls that wait. Each returns the status. */

/* Adds an entry, `content` being what follows its ids. BOOKIE_ACCEPTED writes the receipt, if that is not NULL. */
int bookie_add(bookie *b, uint64_t ledger, uint64_t entry, const void *content, size_t length, bookie_receipt *receipt);
/* The same as part of a recovery: a fence does not refuse it. */
int bookie_add_recovery(bookie *b, uint64_t ledger, uint64_t entry, const void *content, size_t length, bookie_receipt *receipt);
/* Reads an entry, the last entry of a ledger, and the entry of a receipt. BOOKIE_ENTRY: numbers ledger, entry, then the content. */
int bookie_read(bookie *b, uint64_t ledger, uint64_t entry, bookie_reply *reply);
int bookie_read_last(bookie *b, uint64_t ledger, bookie_reply *reply);
int bookie_read_back(bookie *b, const bookie_receipt *receipt, bookie_reply *reply);
/* BOOKIE_LAST writes the greatest entry id of a ledger. */
int bookie_last_entry(bookie *b, uint64_t ledger, uint64_t *entry);
/* BOOKIE_YES or BOOKIE_NO. */
int bookie_holds(bookie *b, uint64_t ledger, uint64_t entry);
int bookie_is_fenced(bookie *b, uint64_t ledger);
/* BOOKIE_PAGE: up to `most` rising ids from `from` on are in `ids`, *count of them; none after the last one. */
int bookie_entries(bookie *b, uint64_t ledger, uint64_t from, uint64_t *ids, size_t most, size_t *count);
int bookie_ledgers(bookie *b, uint64_t from, uint64_t *ids, size_t most, size_t *count);
/* BOOKIE_FENCED_NOW or BOOKIE_FENCED_BEFORE. */
int bookie_fence(bookie *b, uint64_t ledger);
/* BOOKIE_DROPPED writes how many entries the ledger had. */
int bookie_delete(bookie *b, uint64_t ledger, uint64_t *entries);
/* Attributes have up to 256 bytes: BOOKIE_STORED; BOOKIE_ATTRIBUTE or BOOKIE_NO_ATTRIBUTE. */
int bookie_set_master_key(bookie *b, uint64_t ledger, const void *key, size_t length);
int bookie_master_key(bookie *b, uint64_t ledger, bookie_reply *reply);
int bookie_set_explicit_lac(bookie *b, uint64_t ledger, const void *lac, size_t length);
int bookie_explicit_lac(bookie *b, uint64_t ledger, bookie_reply *reply);
/* BOOKIE_FLUSHED: everything that was accepted before is durable. BOOKIE_DURABLE writes the front of the trail. */
int bookie_flush(bookie *b);
int bookie_checkpoint(bookie *b, uint64_t *front);
/* Compacts the logs whose live share is below the server's thresholds: `minor` and `major` are these in thousandths, 200 and 800
 * unless the server has others. 0 omits a kind, and any other number is refused by BOOKIE_OUT_OF_RANGE. BOOKIE_COMPACTED writes
 * what was done, if that is not NULL. */
int bookie_compact(bookie *b, uint64_t minor, uint64_t major, bookie_compacted *done);
/* BOOKIE_FIGURES writes the figures. */
int bookie_stats(bookie *b, bookie_figures *figures);
/* BOOKIE_SEALED or BOOKIE_NOTHING_OPEN. */
int bookie_seal(bookie *b);

/* ---- The end. */

/* How many entries were accepted that may be in memory alone: no flush that was sent later is answered. */
uint64_t bookie_unflushed(bookie *b);
/* Flushes, ends the server and frees b. Returns 0 only if the server said that everything that was accepted is durable. Else it
 * returns the server's exit status as waitpid gives it, or -1: the flush failed, or the session had ended before, or ended
 * meanwhile; bookie_unflushed says before how many entries may be lost. No other call may be under way. */
int bookie_close(bookie *b);
/* Kills the server, as a crash does: what was accepted and not flushed is lost. bookie_wait and bookie_send may be called until
 * bookie_close: they return BOOKIE_GONE. */
void bookie_kill(bookie *b);

#ifdef __cplusplus
}
#endif
#endif
