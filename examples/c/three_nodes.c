/* Three nodes on a cable, all in one program. Node 5 reads the zone list, finds the name of node 7, opens a stream to
   it and writes, and asks the service of node 7. Each datagram that a node sends is handed on at once to those that it
   is for.

       ./three_nodes             prints what `atnode play` prints of the same events
       ./three_nodes schedule    prints these events, as a schedule
       ./three_nodes time N      plays N rounds more, and tells how many events were played and told in a second

   To build it, with KIT the folder of the toolchain, after ./atnode lib:

       gcc -std=c99 -O2 -Iinclude -o three_nodes examples/c/three_nodes.c crates/at_c/out/libat_c.a KIT/c/liblibc_c.a */
#include <stdio.h>
#include <stdlib.h>
#include <string.h>
#include <time.h>

#include "at_node.h"

enum { NODES = 3, MAX_SENT = 256, MAX_TEXT = 65536 };

static const char setup[] =
    "net 10\n"
    "node 1 router zone Lab\n"
    "node 5 zone Lab\n"
    "node 7 zone Office\n"
    "zones Lab Office\n";

static const uint8_t numbers[NODES] = {1, 5, 7};
static at_node nodes[NODES];

/* A datagram on the cable. */
struct sent {
    int from;
    uint8_t to;
    size_t length;
    uint8_t bytes[AT_NODE_MAX_DATAGRAM];
};

static struct sent sent[MAX_SENT];
static size_t sent_count, delivered_count;
static uint32_t event_count;
static uint8_t text[MAX_TEXT]; /* the report of the last event */
static enum { RESULTS, SCHEDULE, NOTHING } printed;

static void fail(const char *what, uint32_t status) {
    fprintf(stderr, "three_nodes: %s: status %u\n", what, (unsigned)status);
    exit(1);
}

static void print_sent(const struct sent *datagram) {
    printf("sent %zu %u ", (size_t)(datagram - sent), datagram->to);
    for (size_t i = 0; i < datagram->length; i++) printf("%02X", datagram->bytes[i]);
    printf("\n");
}

/* Tells what came of an event, and takes what the node sent. */
static void take(int which) {
    size_t length = 0;
    uint32_t status = at_node_report(&nodes[which], event_count++, text, sizeof text - 1, &length);
    if (status != AT_NODE_OK) fail("report", status);
    text[length] = '\0';
    if (printed == RESULTS) fputs((const char *)text, stdout);
    while (sent_count < MAX_SENT) {
        struct sent *next = &sent[sent_count];
        status = at_node_next_datagram(&nodes[which], &next->to, next->bytes, sizeof next->bytes, &next->length);
        if (status == AT_NODE_MISSING) return;
        if (status != AT_NODE_OK) fail("next datagram", status);
        next->from = which;
        if (printed == RESULTS) print_sent(next);
        sent_count++;
    }
    fail("more datagrams than the cable holds", 0);
}

/* Plays a line such as "call zones". */
static void event(int which, const char *line) {
    const char *rest = strchr(line, ' ');
    if (printed == SCHEDULE) printf("%.*s %u%s\n", (int)(rest - line), line, numbers[which], rest);
    uint32_t status = at_node_play(&nodes[which], (const uint8_t *)line, strlen(line));
    if (status != AT_NODE_OK) fail(line, status);
    take(which);
}

/* The service of each node: it answers a request with the byte 2A. */
static void serve(int which) {
    unsigned socket, number;
    char who[16], line[64];
    if (sscanf((const char *)text, "%*u asked %15s %u %u", who, &socket, &number) != 3) return;
    snprintf(line, sizeof line, "call answer %s %u %u 00000000:2A", who, socket, number);
    event(which, line);
}

static void deliver(const struct sent *datagram, int which) {
    if (printed == SCHEDULE) printf("deliver %zu %u\n", (size_t)(datagram - sent), numbers[which]);
    uint32_t status = at_node_receive(&nodes[which], datagram->bytes, datagram->length);
    if (status != AT_NODE_OK) fail("receive", status);
    take(which);
    serve(which);
}

/* Hands on what was sent, up to the last datagram that comes of it. */
static void settle(void) {
    for (; delivered_count < sent_count; delivered_count++) {
        const struct sent *datagram = &sent[delivered_count];
        for (int which = 0; which < NODES; which++) {
            int everyone = datagram->to == AT_NODE_EVERYONE && which != datagram->from;
            if (datagram->to == numbers[which] || everyone) deliver(datagram, which);
        }
    }
}

/* Plays a line, and all that comes of it. */
static void play(int which, const char *line) {
    event(which, line);
    settle();
}

static void play_rounds(long rounds) {
    printed = NOTHING;
    uint32_t before = event_count;
    clock_t begun = clock();
    for (long i = 0; i < rounds; i++) {
        sent_count = delivered_count = 0;
        play(1, "call zones");
    }
    double seconds = (double)(clock() - begun) / CLOCKS_PER_SEC;
    printf("%u events in %.3f s: %.0f a second\n", event_count - before, seconds, (event_count - before) / seconds);
}

int main(int argc, char **argv) {
    printed = argc == 2 && strcmp(argv[1], "schedule") == 0 ? SCHEDULE : RESULTS;
    if (printed == SCHEDULE) fputs(setup, stdout);
    for (int which = 0; which < NODES; which++) {
        uint32_t status = at_node_open(&nodes[which], (const uint8_t *)setup, sizeof setup - 1, numbers[which]);
        if (status != AT_NODE_OK) fail("open", status);
    }
    play(2, "call listen on");
    play(2, "call register Chat Stream 130");
    play(1, "call open 0"); /* nothing was looked for yet, so this is refused */
    play(1, "call zones");
    play(1, "call pick Office");
    play(1, "call find = Stream");
    play(1, "call finish 0");
    play(1, "call open 0");
    play(1, "call write 1 48656C6C6F end");
    play(2, "call read 1 10");
    play(2, "call write 1 2A");
    play(1, "call read 1 10");
    play(1, "call close 1");
    play(2, "timer probe 1");
    play(1, "call ask 7 129 00000000 61736B 1 xo 3");
    if (argc == 3 && strcmp(argv[1], "time") == 0) play_rounds(atol(argv[2]));
    for (int which = 0; which < NODES; which++) at_node_close(&nodes[which]);
    return 0;
}
