/* Refuses one request for memory of the program that it is loaded into, and counts all of them. `refuse` builds it, and
   loads it by LD_PRELOAD. REFUSED is the number of the request that gets no memory, from 1 on; with 0 each gets some.
   At the end the file COUNTED gets two numbers: how many requests there were, and how many blocks still stand. */
#define _GNU_SOURCE
#include <dlfcn.h>
#include <errno.h>
#include <fcntl.h>
#include <stdio.h>
#include <stdlib.h>

static void *(*real_malloc)(size_t);
static void *(*real_realloc)(void *, size_t);
static void (*real_free)(void *);
static long asked, standing, refused;

__attribute__((constructor)) static void begin(void) {
    if (real_malloc != NULL) return;
    *(void **)&real_malloc = dlsym(RTLD_NEXT, "malloc");
    *(void **)&real_realloc = dlsym(RTLD_NEXT, "realloc");
    *(void **)&real_free = dlsym(RTLD_NEXT, "free");
    refused = atol(getenv("REFUSED"));
}

__attribute__((destructor)) static void end(void) {
    int file = open(getenv("COUNTED"), O_WRONLY | O_CREAT | O_TRUNC, 0600);
    if (file < 0 || dprintf(file, "%ld %ld\n", asked, standing) < 0) abort();
}

/* Whether the request gets no memory. */
static int is_refused(void) {
    begin();
    errno = ENOMEM;
    return ++asked == refused;
}

void *malloc(size_t size) {
    void *block = is_refused() ? NULL : real_malloc(size);
    standing += block != NULL;
    return block;
}

void *realloc(void *old, size_t size) {
    void *block = is_refused() ? NULL : real_realloc(old, size);
    standing += block != NULL && old == NULL;
    return block;
}

void free(void *block) {
    begin();
    standing -= block != NULL;
    real_free(block);
}
