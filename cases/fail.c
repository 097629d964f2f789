/* Fails reads and writes of the program that it is loaded into. `fail` builds it, and loads it by LD_PRELOAD.

   Each read gives one byte, and each other one is interrupted. The byte FF can't be read. Each time that a file is sent
   back to its beginning, the bytes of another file are in it: of the file 0 first, then 1 and so on. If there is none,
   it can't be sent back. With FAILED set to "FILE FIRST LAST", the writes to this file from FIRST to LAST fail, counted
   from 0. */
#define _GNU_SOURCE
#include <dlfcn.h>
#include <errno.h>
#include <fcntl.h>
#include <stdio.h>
#include <stdlib.h>
#include <unistd.h>

static ssize_t (*real_read)(int, void *, size_t);
static ssize_t (*real_write)(int, const void *, size_t);
static long reads, writes, first, last;
static int failed_file = -1;
static char name[] = "0";

__attribute__((constructor)) static void begin(void) {
    const char *failed = getenv("FAILED");
    *(void **)&real_read = dlsym(RTLD_NEXT, "read");
    *(void **)&real_write = dlsym(RTLD_NEXT, "write");
    if (failed != NULL && sscanf(failed, "%d %ld %ld", &failed_file, &first, &last) != 3) abort();
}

static long fail(int why) {
    errno = why;
    return -1;
}

ssize_t read(int file, void *room, size_t size) {
    if (reads++ % 2 == 0) return fail(EINTR);
    ssize_t count = real_read(file, room, size > 1 ? 1 : size);
    return count == 1 && *(unsigned char *)room == 0xFF ? fail(EISDIR) : count;
}

off_t lseek(int file, off_t place, int from) {
    int next = place == 0 && from == SEEK_SET ? open(name, O_RDONLY) : -1;
    if (next < 0) return fail(ESPIPE);
    name[0]++;
    if (dup2(next, file) < 0) abort();
    return close(next);
}

ssize_t write(int file, const void *bytes, size_t size) {
    long number = file == failed_file ? writes++ : -1;
    return number >= 0 && number >= first && number <= last ? fail(ENOSPC) : real_write(file, bytes, size);
}
