/* Lets each allocation of a program fail in turn, and checks what is promised of a call that finds no memory: that it
   changes nothing, so that the call, made once more, does what it would have done. So each run prints the same lines,
   and frees all.

   To build it, with KIT the folder of the toolchain, after ./atnode lib:

       gcc -std=c99 -O2 -Iinclude -Wl,--wrap=malloc,--wrap=realloc,--wrap=free -o no_memory \
           examples/c/no_memory.c crates/at_c/out/libat_c.a KIT/c/liblibc_c.a */
#include <stdio.h>
#include <stdlib.h>
#include <string.h>

#include "at_node.h"
#include "refusing.h"

enum { NODES = 2, MAX_PRINTED = 65536 };

static const char setup[] = "net 10\nnode 1 router zone Lab\nnode 5 zone Lab\nzones Lab Office\n";
static const uint8_t numbers[NODES] = {1, 5};
static const char *const lines[] = {"call zones",
                                    "call register Printer LaserWriter 130",
                                    "call find = = Lab",
                                    "call finish 0",
                                    "call pick Nowhere",
                                    "call listen on",
                                    "call ask 1 129 00000000 AA 1 xo 3",
                                    "call answer 1 128 0 00000000:BB"};
enum { LINES = sizeof lines / sizeof *lines };

static at_node nodes[NODES];
static uint8_t printed[MAX_PRINTED];
static size_t printed_length;
static long retries;

static void fail(const char *what, long number) {
    fprintf(stderr, "no_memory: %s: %ld, when allocation %ld was refused\n", what, number, refused_at);
    exit(1);
}

/* Whether the call is to be made once more. */
static int again(const char *what, uint32_t status) {
    if (status == AT_NODE_NO_MEMORY && retries++ == 0) return 1;
    if (status != AT_NODE_OK && status != AT_NODE_MISSING) fail(what, status);
    return 0;
}

/* Prints the timers that a node waits for. */
static void print_timers(int which) {
    size_t length = 0;
    uint32_t status;
    do status = at_node_timers(&nodes[which], printed + printed_length, MAX_PRINTED - printed_length, &length);
    while (again("timers", status));
    printed_length += length;
}

/* Prints what a datagram is. */
static void print_datagram(const uint8_t *bytes, size_t count) {
    size_t length = 0;
    uint32_t status;
    do status = at_node_show(bytes, count, printed + printed_length, MAX_PRINTED - printed_length, &length);
    while (again("show", status));
    printed_length += length;
}

/* Prints the report, the timers and the datagrams of a node, and gives each datagram to the other one. */
static void settle(int which) {
    size_t length = 0;
    uint32_t status;
    do status = at_node_report(&nodes[which], 0, printed + printed_length, MAX_PRINTED - printed_length, &length);
    while (again("report", status));
    printed_length += length;
    print_timers(which);
    uint8_t bytes[AT_NODE_MAX_DATAGRAM] = {0};
    uint8_t to = 0;
    while (at_node_next_datagram(&nodes[which], &to, bytes, sizeof bytes, &length) == AT_NODE_OK) {
        print_datagram(bytes, length);
        do status = at_node_receive(&nodes[!which], bytes, length);
        while (again("receive", status));
        settle(!which);
    }
}

static void play(const char *line) {
    uint32_t status;
    do status = at_node_play(&nodes[1], (const uint8_t *)line, strlen(line));
    while (again(line, status));
    settle(1);
    uint8_t number = 0, text[200] = {0};
    size_t length = 0;
    do status = at_node_refusal(&nodes[1], &number, text, sizeof text, &length);
    while (again("refusal", status));
    if (status == AT_NODE_OK) {
        memcpy(printed + printed_length, text, length);
        printed_length += length;
    }
}

static void open_nodes(void) {
    for (int which = 0; which < NODES; which++) {
        uint32_t status;
        do status = at_node_open(&nodes[which], (const uint8_t *)setup, sizeof setup - 1, numbers[which]);
        while (again("open", status));
    }
}

static void run(void) {
    asked = retries = 0;
    printed_length = 0;
    open_nodes();
    open_nodes(); /* frees those that were open */
    for (int i = 0; i < LINES; i++) play(lines[i]);
    for (int which = 0; which < NODES; which++) at_node_close(&nodes[which]);
    if (standing != 0) fail("blocks that still stand", standing);
}

int main(void) {
    static uint8_t expected[MAX_PRINTED];
    run();
    long allocations = asked;
    size_t length = printed_length;
    memcpy(expected, printed, length);
    for (refused_at = 1; refused_at <= allocations; refused_at++) {
        run();
        if (printed_length != length || memcmp(printed, expected, length) != 0) fail("other lines", 0);
        if (retries != 1) fail("calls without memory", retries);
    }
    puts("each allocation was refused once, and nothing changed by it; nothing is left");
    return 0;
}
