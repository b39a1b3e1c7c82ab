// Refuses one allocation of a program. .ci/refusals.py compiles it and preloads it: the program
// takes its memory by functions of the C library, which stand here in their place.
//
//   REFUSED        which allocation is refused, from 1; 0: none
//   REFUSED_COUNT  a file that gets the number of allocations that the program asked for, at its
//                  end
#define _GNU_SOURCE
#include <errno.h>
#include <fcntl.h>
#include <stdatomic.h>
#include <stdio.h>
#include <stdlib.h>
#include <sys/syscall.h>
#include <unistd.h>

extern void *__libc_malloc(size_t size);
extern void *__libc_realloc(void *old, size_t size);

static atomic_long asked;
static long refused;

__attribute__((constructor)) static void begin(void) {
    const char *number = getenv("REFUSED");
    refused = number ? atol(number) : 0;
    atomic_store(&asked, 0);
}

static void tell(void) {
    const char *path = getenv("REFUSED_COUNT");
    int file = path ? open(path, O_WRONLY | O_CREAT | O_TRUNC | O_CLOEXEC, 0600) : -1;
    if (file >= 0) {
        dprintf(file, "%ld\n", atomic_load(&asked));
        close(file);
    }
}

__attribute__((destructor)) static void end(void) {
    tell();
}

// A program with threads may end by this call, which runs no destructor.
void _exit(int status) {
    tell();
    for (;;) {
        syscall(SYS_exit_group, status);
    }
}

static int is_refused(void) {
    return atomic_fetch_add(&asked, 1) + 1 == refused;
}

static void *none(void) {
    errno = ENOMEM;
    return NULL;
}

void *malloc(size_t size) {
    return is_refused() ? none() : __libc_malloc(size);
}

void *realloc(void *old, size_t size) {
    return is_refused() ? none() : __libc_realloc(old, size);
}
