/* A service that runs for an hour: node 5 asks node 7 a thousand exactly-once requests, one each 3.6 seconds, and the
   cable loses one datagram in ten. Each request runs once, and gets its answer. The time is simulated, and the timers
   are those that at_node_timers lists. In between 64 requests come from another network. They take every place for a
   record that is free, are answered by their whole address, and go.

       ./service

   To build it, with KIT the folder of the toolchain, after ./atnode lib:

       gcc -std=c99 -O2 -Iinclude -o service examples/c/service.c crates/at_c/out/libat_c.a KIT/c/liblibc_c.a */
#include "simulated.h"

enum { ASKER, SERVER, REQUESTS = 1000, FORGED = 64, INTERVAL = 3600, MINUTE = 60000 };

static const char setup[] = "net 10\nnode 5\nnode 7\n";
static const uint8_t of_setup[] = {5, 7};

static unsigned runs[REQUESTS]; /* how often each request ran */
static unsigned answered, forged, failed;

/* Answers the request with these data, which are a number of four digits. */
static void serve(const char *who, unsigned socket, unsigned tid, const char *data) {
    char line[MAX_TIMER_LINE + 64];
    unsigned long number = strtoul(data, NULL, 10);
    if (number < REQUESTS) runs[number]++;
    if (strchr(who, '.') != NULL) forged++;
    snprintf(line, sizeof line, "call answer %s %u %u 00000000:%s", who, socket, tid, data);
    event(SERVER, line);
}

static void reported(int which, const char *report) {
    char who[16], data[16];
    unsigned socket, tid;
    if (sscanf(report, "asked %15s %u %u %*s %15s", who, &socket, &tid, data) == 4) serve(who, socket, tid, data);
    if (which == ASKER && strncmp(report, "response ", 9) == 0) answered++;
    if (which == ASKER && strncmp(report, "failed ", 7) == 0) failed++;
    if (strncmp(report, "refused ", 8) == 0) fail(report, (unsigned)which);
}

static void ask(unsigned number) {
    char line[64];
    snprintf(line, sizeof line, "call ask 7 129 00000000 %04u 1 xo 255", number);
    event(ASKER, line);
}

/* A request for exactly once from node 5 of network 12, with no checksum, under this number. Its data are not a number
   of a request: 9999. */
static void forge(unsigned tid) {
    uint8_t bytes[] = {0, 23, 0, 0, 0, 10, 0, 12, 7, 5, 129, 128, 3, 0x60, 1, 0, 0, 0, 0, 0, 0, 0x99, 0x99};
    bytes[16] = (uint8_t)tid;
    deliver(SERVER, bytes, sizeof bytes);
}

/* The records that the server has now: a release timer for each that is answered. */
static unsigned records(void) {
    unsigned count = 0;
    for (size_t i = 0; i < alarms[SERVER].count; i++) {
        if (strncmp(alarms[SERVER].all[i].line, "timer release ", 14) == 0) count++;
    }
    return count;
}

int main(void) {
    weather.lost = 10;
    weather.repeated = 5;
    weather.delay = 200;
    open_nodes(setup, of_setup, 2);
    for (unsigned number = 0; number < REQUESTS; number++) {
        ask(number);
        if (number == REQUESTS / 2) {
            play_until(clock_now + MINUTE);
            if (records() != 0) fail("records are left", records());
            for (unsigned tid = 0; tid < FORGED; tid++) forge(tid);
            if (records() != FORGED) fail("forged requests have no records", records());
            play_until(clock_now + MINUTE);
        }
        play_until(clock_now + INTERVAL);
    }
    play_until(clock_now + 10 * MINUTE);
    for (unsigned number = 0; number < REQUESTS; number++) {
        if (runs[number] != 1) fail("a request did not run once", number);
    }
    printf("%u requests ran once, %u answers came, %u failed; %u of another network were answered; "
           "%u records and %u timers are left\n",
           REQUESTS, answered, failed, forged, records(), (unsigned)(alarms[ASKER].count + alarms[SERVER].count));
    close_nodes();
    return 0;
}
