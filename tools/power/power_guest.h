// What the parts of the guest's first process share, for ./dev power: power_guest.c and
// power_client.c.
#include <stddef.h>

// Bytes of a message.
struct bytes {
    char *at;
    size_t length;
};

// Ends the process with the reason of the last failed call.
void stop(const char *why);

// Returns an empty message. Its bytes are those of every other one: at most one at a time.
struct bytes area(void);

// Adds bytes, and zeros up to whole blocks of a size.
void add(struct bytes *to, const void *data, size_t length, size_t block);

// Reads a file, pipe or device to its end, or until a call fails, and adds that. Returns 0, or why
// it cannot be read.
int add_rest(struct bytes *to, int fd);

// Reports bytes with words: first the bytes, then their length and the words, which stand between
// the events of the data disk.
void report(struct bytes data, const char *words);

int opened(const char *name, int flags);

// Runs the server with these words, and is its client. Returns its status.
int serve(char **words, const char *number, int err);

// Waits for a child process. Returns its status, 128 and the signal if it was killed.
int status_of(int child);
