/* Put ahead of the C library by LD_PRELOAD: refuses one call that a program makes of it, told by the environment.
   Calls are counted from 1, and what is refused is told on standard error.

   REFUSE_MEMORY=N   the Nth of malloc and realloc has no memory
   REFUSE_INPUT=N    open and read fail at the Nth of their calls; each read gives one byte
   REFUSE_OUTPUT=N   write fails at its Nth call on standard output; each one takes one byte
   REFUSE_THREAD=N   the Nth thread isn't made */
#define _GNU_SOURCE
#include <dlfcn.h>
#include <errno.h>
#include <fcntl.h>
#include <pthread.h>
#include <stdatomic.h>
#include <stdlib.h>
#include <unistd.h>

enum { MEMORY, INPUT, OUTPUT, THREAD, KINDS };
static const char *const names[KINDS] = {"REFUSE_MEMORY", "REFUSE_INPUT", "REFUSE_OUTPUT", "REFUSE_THREAD"};
static long refused[KINDS];
static atomic_long made[KINDS];

static void *(*next_malloc)(size_t);
static void *(*next_realloc)(void *, size_t);
static int (*next_open)(const char *, int, ...);
static ssize_t (*next_read)(int, void *, size_t);
static ssize_t (*next_write)(int, const void *, size_t);
static int (*next_create)(pthread_t *, const pthread_attr_t *, void *(*)(void *), void *);

__attribute__((constructor)) static void begin(void) {
    next_malloc = dlsym(RTLD_NEXT, "malloc");
    next_realloc = dlsym(RTLD_NEXT, "realloc");
    next_open = dlsym(RTLD_NEXT, "open");
    next_read = dlsym(RTLD_NEXT, "read");
    next_write = dlsym(RTLD_NEXT, "write");
    next_create = dlsym(RTLD_NEXT, "pthread_create");
    for (int kind = 0; kind < KINDS; kind++) {
        const char *told = getenv(names[kind]);
        refused[kind] = told ? atol(told) : 0;
    }
}

static int is_refused(int kind) {
    if (refused[kind] == 0 || ++made[kind] != refused[kind]) {
        return 0;
    }
    next_write(2, "refused\n", 8);
    return 1;
}

void *malloc(size_t size) {
    if (!next_malloc) {
        begin();
    }
    if (is_refused(MEMORY)) {
        errno = ENOMEM;
        return 0;
    }
    return next_malloc(size);
}

void *realloc(void *old, size_t size) {
    if (is_refused(MEMORY)) {
        errno = ENOMEM;
        return 0;
    }
    return next_realloc(old, size);
}

int open(const char *name, int flags, ...) {
    if (is_refused(INPUT)) {
        errno = EIO;
        return -1;
    }
    return next_open(name, flags);
}

ssize_t read(int file, void *bytes, size_t size) {
    if (is_refused(INPUT)) {
        errno = EIO;
        return -1;
    }
    return next_read(file, bytes, refused[INPUT] && size > 1 ? 1 : size);
}

ssize_t write(int file, const void *bytes, size_t size) {
    if (file != 1) {
        return next_write(file, bytes, size);
    }
    if (is_refused(OUTPUT)) {
        errno = EIO;
        return -1;
    }
    return next_write(file, bytes, refused[OUTPUT] && size > 1 ? 1 : size);
}

int pthread_create(pthread_t *thread, const pthread_attr_t *how, void *(*body)(void *), void *given) {
    return is_refused(THREAD) ? EAGAIN : next_create(thread, how, body, given);
}
