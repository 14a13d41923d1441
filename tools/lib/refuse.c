/* Stands before the C library and refuses memory: the call number REFUSE_AT alone, or from call number REFUSE_FROM on each
   of at least REFUSE_SIZE bytes. With COUNT_TO it writes to that file how many calls there were. */
#define _GNU_SOURCE
#include <dlfcn.h>
#include <errno.h>
#include <fcntl.h>
#include <stdio.h>
#include <stdlib.h>
#include <unistd.h>

static unsigned long calls, at, from, size;
static void *(*next_malloc)(size_t);
static void *(*next_realloc)(void *, size_t);

static unsigned long number(const char *name) {
    const char *text = getenv(name);
    return text ? strtoul(text, NULL, 10) : 0;
}

static __attribute__((constructor)) void begin(void) {
    next_malloc = dlsym(RTLD_NEXT, "malloc");
    next_realloc = dlsym(RTLD_NEXT, "realloc");
    at = number("REFUSE_AT"), from = number("REFUSE_FROM"), size = number("REFUSE_SIZE");
    calls = 0;
}

static __attribute__((destructor)) void end(void) {
    const char *name = getenv("COUNT_TO");
    char text[32];
    if (!name) return;
    int file = open(name, O_WRONLY | O_CREAT | O_TRUNC, 0644);
    int length = snprintf(text, sizeof text, "%lu\n", calls);
    if (file >= 0 && write(file, text, length) != length) _exit(99);
}

static int refused(size_t bytes) {
    calls++;
    return calls == at || (from && calls >= from && bytes >= size);
}

void *malloc(size_t bytes) {
    if (!next_malloc) next_malloc = dlsym(RTLD_NEXT, "malloc");
    if (next_realloc && refused(bytes)) { errno = ENOMEM; return NULL; }
    return next_malloc(bytes);
}

void *realloc(void *old, size_t bytes) {
    if (!next_realloc) next_realloc = dlsym(RTLD_NEXT, "realloc");
    if (refused(bytes)) { errno = ENOMEM; return NULL; }
    return next_realloc(old, bytes);
}
