/* Preloaded: refuses the request for memory whose number is in REFUSE_AT, from 1, and writes how many requests there were
 * to the file in REFUSE_COUNT. */
#define _GNU_SOURCE
#include <dlfcn.h>
#include <errno.h>
#include <fcntl.h>
#include <stddef.h>
#include <stdio.h>
#include <stdlib.h>
#include <unistd.h>

static long calls;

static int refused(void) {
    static long at = -1;
    if (at < 0) {
        const char *word = getenv("REFUSE_AT");
        at = word ? atol(word) : 0;
    }
    return ++calls == at;
}

#define NEXT(name) \
    static __typeof__(&name) next; \
    if (!next) next = (__typeof__(&name))dlsym(RTLD_NEXT, #name)

void *malloc(size_t size) {
    NEXT(malloc);
    return refused() ? (errno = ENOMEM, NULL) : next(size);
}

void *realloc(void *old, size_t size) {
    NEXT(realloc);
    return refused() ? (errno = ENOMEM, NULL) : next(old, size);
}

void *aligned_alloc(size_t align, size_t size) {
    NEXT(aligned_alloc);
    return refused() ? (errno = ENOMEM, NULL) : next(align, size);
}

int posix_memalign(void **at, size_t align, size_t size) {
    NEXT(posix_memalign);
    return refused() ? ENOMEM : next(at, align, size);
}

__attribute__((destructor)) static void tell(void) {
    const char *path = getenv("REFUSE_COUNT");
    int file = path ? open(path, O_WRONLY | O_CREAT | O_TRUNC, 0666) : -1;
    if (file < 0) return;
    char text[24];
    int length = snprintf(text, sizeof text, "%ld\n", calls);
    (void)!write(file, text, length);
    close(file);
}
