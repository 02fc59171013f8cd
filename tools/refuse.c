/* Stands before the C library of a program, and refuses one of its calls.
 *
 * REFUSE names what is refused, and NTH which call of that kind, counted from 1:
 *   memory  malloc and realloc give no memory
 *   desk    open, read and write fail
 *   short   a read or a write of several bytes moves one
 * Once the program ends, a line on the file REFUSED says how many calls of the kind there were. */
#define _GNU_SOURCE
#include <dlfcn.h>
#include <errno.h>
#include <fcntl.h>
#include <stdarg.h>
#include <stdio.h>
#include <stdlib.h>
#include <string.h>
#include <unistd.h>

static unsigned long calls;

/* Whether this call, of the given kind, is the one that is refused. */
static int is_refused(const char *kind) {
    const char *wanted = getenv("REFUSE"), *nth = getenv("NTH");
    if (!wanted || !nth || strcmp(wanted, kind) != 0)
        return 0;
    return ++calls == strtoul(nth, NULL, 10);
}

void *malloc(size_t size) {
    static void *(*next)(size_t);
    if (!next)
        next = dlsym(RTLD_NEXT, "malloc");
    if (is_refused("memory")) {
        errno = ENOMEM;
        return NULL;
    }
    return next(size);
}

void *realloc(void *old, size_t size) {
    static void *(*next)(void *, size_t);
    if (!next)
        next = dlsym(RTLD_NEXT, "realloc");
    if (is_refused("memory")) {
        errno = ENOMEM;
        return NULL;
    }
    return next(old, size);
}

int open(const char *path, int flags, ...) {
    static int (*next)(const char *, int, ...);
    va_list more;
    mode_t mode;
    if (!next)
        next = dlsym(RTLD_NEXT, "open");
    va_start(more, flags);
    mode = flags & O_CREAT ? va_arg(more, mode_t) : 0;
    va_end(more);
    if (is_refused("desk")) {
        errno = EIO;
        return -1;
    }
    return next(path, flags, mode);
}

ssize_t read(int file, void *bytes, size_t size) {
    static ssize_t (*next)(int, void *, size_t);
    if (!next)
        next = dlsym(RTLD_NEXT, "read");
    if (is_refused("desk")) {
        errno = EIO;
        return -1;
    }
    return next(file, bytes, size > 1 && is_refused("short") ? 1 : size);
}

ssize_t write(int file, const void *bytes, size_t size) {
    static ssize_t (*next)(int, const void *, size_t);
    if (!next)
        next = dlsym(RTLD_NEXT, "write");
    if (is_refused("desk")) {
        errno = EIO;
        return -1;
    }
    return next(file, bytes, size > 1 && is_refused("short") ? 1 : size);
}

ssize_t __write(int file, const void *bytes, size_t size) {
    return write(file, bytes, size);
}

__attribute__((destructor)) static void count_calls(void) {
    const char *path = getenv("REFUSED");
    FILE *out;
    if (!path)
        return;
    unsetenv("REFUSE");
    out = fopen(path, "w");
    if (out) {
        fprintf(out, "%lu\n", calls);
        fclose(out);
    }
}
