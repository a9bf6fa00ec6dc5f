/* Preloaded: numbers the calls that open, read, write, sync, rename, remove and close a file, from 1, and breaks the one
 * whose number is in BREAK_AT as BREAK_HOW says: `kill` ends the program before the call, `half` ends it after half of the
 * bytes of a write, `fail` makes the call fail, `short` lets a read or write take one byte. The number of calls of a run
 * that comes to its end is written to the file in BREAK_COUNT. */
#define _GNU_SOURCE
#include <dlfcn.h>
#include <errno.h>
#include <fcntl.h>
#include <signal.h>
#include <stdarg.h>
#include <stdio.h>
#include <stdlib.h>
#include <string.h>
#include <unistd.h>

static long calls;

#define NEXT(name) \
    static __typeof__(&name) next; \
    if (!next) next = (__typeof__(&name))dlsym(RTLD_NEXT, #name)

static int is_how(const char *how) {
    const char *word = getenv("BREAK_HOW");
    return word && !strcmp(word, how);
}

/* Whether this call is to fail; a call that ends the program doesn't come back. */
static int broken(void) {
    const char *at = getenv("BREAK_AT");
    if (++calls != (at ? atol(at) : 0)) return 0;
    if (is_how("kill")) raise(SIGKILL);
    return 1;
}

static int refused(int code) {
    errno = code;
    return -1;
}

static int fails(int code) {
    return broken() && is_how("fail") ? refused(code) : 0;
}

static mode_t mode_of(int flags, va_list rest) {
    return flags & O_CREAT ? va_arg(rest, mode_t) : 0;
}

int open(const char *path, int flags, ...) {
    NEXT(open);
    va_list rest;
    va_start(rest, flags);
    mode_t mode = mode_of(flags, rest);
    va_end(rest);
    return fails(flags & O_CREAT ? ENOSPC : EIO) ? -1 : next(path, flags, mode);
}

int openat(int folder, const char *path, int flags, ...) {
    NEXT(openat);
    va_list rest;
    va_start(rest, flags);
    mode_t mode = mode_of(flags, rest);
    va_end(rest);
    return fails(flags & O_CREAT ? ENOSPC : EIO) ? -1 : next(folder, path, flags, mode);
}

ssize_t read(int file, void *bytes, size_t count) {
    NEXT(read);
    if (!broken()) return next(file, bytes, count);
    if (is_how("fail")) return refused(EIO);
    return next(file, bytes, is_how("short") && count > 1 ? 1 : count);
}

ssize_t write(int file, const void *bytes, size_t count) {
    NEXT(write);
    if (file == 2 || !broken()) return next(file, bytes, count);
    if (is_how("fail")) return refused(ENOSPC);
    if (is_how("half")) {
        (void)!next(file, bytes, count / 2);
        raise(SIGKILL);
    }
    return next(file, bytes, is_how("short") && count > 1 ? 1 : count);
}

int fsync(int file) {
    NEXT(fsync);
    return fails(EIO) ? -1 : next(file);
}

int rename(const char *from, const char *to) {
    NEXT(rename);
    return fails(EACCES) ? -1 : next(from, to);
}

int unlink(const char *path) {
    NEXT(unlink);
    return fails(EACCES) ? -1 : next(path);
}

int close(int file) {
    NEXT(close);
    return fails(EIO) ? -1 : next(file);
}

__attribute__((destructor)) static void tell(void) {
    const char *path = getenv("BREAK_COUNT");
    FILE *file = path ? fopen(path, "w") : NULL;
    if (file) {
        fprintf(file, "%ld\n", calls);
        fclose(file);
    }
}
