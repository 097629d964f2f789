/* Counts the blocks of memory of a program, and refuses one of its requests for memory. The program is linked with
   -Wl,--wrap=malloc,--wrap=realloc,--wrap=free. */
#ifndef REFUSING_H
#define REFUSING_H

#include <stddef.h>

/* How many blocks stand, how many were asked for while requests count, and which of these is refused. */
static long standing, asked, refused_at;
static int requests_count = 1;

static int is_refused(void) {
    return requests_count && ++asked == refused_at;
}

void *__real_malloc(size_t size);
void *__real_realloc(void *block, size_t size);
void __real_free(void *block);

void *__wrap_malloc(size_t size) {
    void *block = is_refused() ? NULL : __real_malloc(size);
    if (block != NULL) standing++;
    return block;
}

void *__wrap_realloc(void *old, size_t size) {
    void *block = is_refused() ? NULL : __real_realloc(old, size);
    if (block != NULL && old == NULL) standing++;
    return block;
}

void __wrap_free(void *block) {
    if (block != NULL) standing--;
    __real_free(block);
}

#endif
