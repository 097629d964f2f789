/* Sixteen nodes that make calls at random for as long as is asked, on a cable that loses one datagram in ten, with the
   timers that at_node_timers lists. It prints how much memory the program has after each part of the events.

       ./soak EVENTS [PARTS]

   To build it, with KIT the folder of the toolchain, after ./atnode lib:

       gcc -std=c99 -O2 -Iinclude -Iexamples/c -o soak bench/soak.c crates/at_c/out/libat_c.a KIT/c/liblibc_c.a */
#include <malloc.h>
#include <time.h>

#include "simulated.h"

enum { COUNT = 16, MAX_PAUSE = 20, MAX_CALL = 128, MAX_ENDS = 16, MAX_LOOKUPS = 8 };

/* The numbers of what a node has open. */
struct open {
    size_t count;
    unsigned ids[MAX_ENDS];
};

static char setup[1024];
static uint8_t of_setup[COUNT];
static struct open ends[COUNT], lookups[COUNT];
static unsigned long long refused;

static void add(struct open *open, unsigned id, size_t most) {
    if (open->count == most) fail("a node has more open than it may", id);
    open->ids[open->count++] = id;
}

static void take_away(struct open *open, unsigned id) {
    size_t kept = 0;
    for (size_t i = 0; i < open->count; i++) {
        if (open->ids[i] != id) open->ids[kept++] = open->ids[i];
    }
    open->count = kept;
}

/* One of those that are open, at random; 0 if none is, which the node may refuse. */
static unsigned any(const struct open *open) {
    return open->count == 0 ? 0 : open->ids[drawn((unsigned)open->count)];
}

/* An end that is closed is freed, as a program does that has read what it wants. */
static void ends_changed(int which, const char *report) {
    char line[MAX_CALL];
    unsigned id;
    if (sscanf(report, "opening %u", &id) == 1 || sscanf(report, "made %u", &id) == 1) {
        add(&ends[which], id, MAX_ENDS);
    } else if (sscanf(report, "freed %u", &id) == 1 || sscanf(report, "denied %u", &id) == 1) {
        take_away(&ends[which], id);
    } else if (sscanf(report, "closed %u", &id) == 1) {
        snprintf(line, sizeof line, "call close %u", id);
        event(which, line);
    }
}

/* A service answers each request. */
static void reported(int which, const char *report) {
    char who[16], line[MAX_CALL];
    unsigned socket, tid, id;
    if (strncmp(report, "refused ", 8) == 0) refused++;
    if (sscanf(report, "looking %u", &id) == 1) add(&lookups[which], id, MAX_LOOKUPS);
    ends_changed(which, report);
    if (sscanf(report, "asked %15s %u %u", who, &socket, &tid) != 3) return;
    snprintf(line, sizeof line, "call answer %s %u %u 00000000:%04X", who, socket, tid, drawn(65536));
    event(which, line);
}

static void write_setup(void) {
    int length = sprintf(setup, "net 10\n");
    for (int i = 0; i < COUNT; i++) {
        of_setup[i] = (uint8_t)(i + 1);
        length += sprintf(setup + length, "node %d%s zone Zone%d\n", i + 1, i == 0 ? " router" : "", i % 3);
    }
    sprintf(setup + length, "zones Zone0 Zone1 Zone2\nlocal Zone0\n");
}

static void finish(int which) {
    char line[MAX_CALL];
    unsigned id = any(&lookups[which]);
    take_away(&lookups[which], id);
    snprintf(line, sizeof line, "call finish %u", id);
    event(which, line);
}

/* A call at random. Some are refused: a table of the node is full, or what they name is not open. */
static void call(int which) {
    char line[MAX_CALL];
    unsigned other = 1 + drawn(COUNT), small = 1 + drawn(6), id = drawn(8), end = any(&ends[which]);
    switch (drawn(14)) {
    case 0: snprintf(line, sizeof line, "call zones"); break;
    case 1: snprintf(line, sizeof line, "call localzones"); break;
    case 2: snprintf(line, sizeof line, "call setzones Zone0 Zone1 Zone%u", small); break;
    case 3: snprintf(line, sizeof line, "call ask %u 129 00000000 %04X %u xo %u", other, id, small, small); break;
    case 4: snprintf(line, sizeof line, "call ask %u 129 00000000 %04X %u alo %u", other, id, small, small); break;
    case 5: snprintf(line, sizeof line, "call find = Kind%u", small); break;
    case 6: finish(which); return;
    case 7: snprintf(line, sizeof line, "call claim Object%u Kind%u 130", id, small); break;
    case 8: snprintf(line, sizeof line, "call unregister Object%u Kind%u", id, small); break;
    case 9: snprintf(line, sizeof line, "call listen %s", drawn(4) ? "on" : "off"); break;
    case 10: snprintf(line, sizeof line, "call connect %u 130", other); break;
    case 11: snprintf(line, sizeof line, "call write %u 00112233445566778899 end", end); break;
    case 12: snprintf(line, sizeof line, "call read %u 64", end); break;
    default: snprintf(line, sizeof line, "call %s %u", drawn(3) ? "close" : "reset", end); break;
    }
    event(which, line);
}

/* The bytes that malloc has handed out, and kilobytes that the program has of the system. */
static void tell(double seconds) {
    char line[128];
    unsigned long kilobytes = 0;
    FILE *status = fopen("/proc/self/status", "r");
    while (status != NULL && fgets(line, sizeof line, status) != NULL) sscanf(line, "VmRSS: %lu", &kilobytes);
    if (status != NULL) fclose(status);
    printf("%llu events, %llu refused, %.0f s: %zu kB in use, %lu kB of the system\n", event_count, refused, seconds,
           mallinfo2().uordblks / 1024, kilobytes);
    fflush(stdout);
}

int main(int argc, char **argv) {
    unsigned long long events = argc > 1 ? strtoull(argv[1], NULL, 10) : 0;
    unsigned long long parts = argc > 2 ? strtoull(argv[2], NULL, 10) : 1;
    if (events == 0 || parts == 0) fail("usage: soak EVENTS [PARTS]", 0);
    weather.lost = 10;
    weather.repeated = 5;
    weather.delay = 300;
    write_setup();
    open_nodes(setup, of_setup, COUNT);
    clock_t begun = clock();
    for (unsigned long long part = 1; part <= parts; part++) {
        while (event_count < events * part / parts) {
            call((int)drawn(COUNT));
            play_until(clock_now + drawn(MAX_PAUSE));
        }
        tell((double)(clock() - begun) / CLOCKS_PER_SEC);
    }
    close_nodes();
    return 0;
}
