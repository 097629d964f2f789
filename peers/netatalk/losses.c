/* Losses, as losses.h says. */
#define _GNU_SOURCE

#include "losses.h"

#include <stdio.h>
#include <stdlib.h>
#include <string.h>
#include <time.h>

enum { ATP = 3, ATP_HEADER = 9, REQUEST = 0x40, RESPONSE = 0x80, KINDS = 0xC0, PAP_DATA = 4, PAP_TICKLE = 5 };

static bool is_of_pap(const uint8_t *data, size_t length, uint8_t kind, uint8_t function) {
    return length >= ATP_HEADER && data[0] == ATP && (data[1] & KINDS) == kind && data[6] == function;
}

static double now(void) {
    struct timespec time;
    clock_gettime(CLOCK_MONOTONIC, &time);
    return (double)time.tv_sec + (double)time.tv_nsec / 1e9;
}

/* Whether it is an answer of the first transaction, less than so many seconds after the first of its answers. */
static bool is_early_answer(const uint8_t *data, size_t length, double seconds) {
    static uint8_t first[2];
    static double begun = -1;
    if (!is_of_pap(data, length, RESPONSE, PAP_DATA)) return false;
    if (begun < 0) {
        begun = now();
        memcpy(first, data + 3, sizeof first);
    }
    return memcmp(first, data + 3, sizeof first) == 0 && now() - begun < seconds;
}

bool is_lost(const uint8_t *data, size_t length) {
    const char *what = getenv("PEER_LOSES");
    double seconds;
    if (what == NULL) return false;
    if (strcmp(what, "tickles") == 0) return is_of_pap(data, length, REQUEST, PAP_TICKLE);
    if (sscanf(what, "answers:%lf", &seconds) == 1) return is_early_answer(data, length, seconds);
    fprintf(stderr, "PEER_LOSES is neither \"tickles\" nor \"answers:SECONDS\": %s\n", what);
    exit(2);
}
