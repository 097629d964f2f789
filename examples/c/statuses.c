/* Brings about each status once, and checks that nothing was written where nothing is to be.

   To build it, with KIT the folder of the toolchain, after ./atnode lib:

       gcc -std=c99 -O2 -Iinclude -o statuses examples/c/statuses.c crates/at_c/out/libat_c.a KIT/c/liblibc_c.a */
#include <stdio.h>
#include <stdlib.h>
#include <string.h>

#include "at_node.h"

static const char setup[] = "net 10\nnode 1 router zone Lab\nnode 5 zone Lab\nzones Lab\n";

/* None of these begins a schedule. */
static const char *const faulty_setups[] = {
    "",
    "net 0\n",
    "net 65536\n",
    "node 5\nnet 10\n",
    "net 10\nnet 10\n",
    "net 10\nnode 0\n",
    "net 10\nnode 255\n",
    "net 10\nnode 5\nnode 5\n",
    "net 10\nnode 5 zone Lab\n",
    "net 10\nnode 5\nzones Lab\n",
    "net 10\r\nnode 5\n",
    "net 10\nport 47200\nnode 5\n",
};
enum { FAULTY_SETUPS = sizeof faulty_setups / sizeof *faulty_setups };

static at_node node = AT_NODE_NONE;
static uint8_t room[AT_NODE_MAX_DATAGRAM];
static uint8_t number;
static size_t length;
static int count;

static void want(uint32_t status, uint32_t wanted) {
    count++;
    if (status == wanted) return;
    fprintf(stderr, "statuses: call %d: status %u, wanted %u\n", count, (unsigned)status, (unsigned)wanted);
    exit(1);
}

static uint32_t open_it(const char *text, uint8_t which) {
    return at_node_open(&node, (const uint8_t *)text, strlen(text), which);
}

static uint32_t play(const char *line) {
    return at_node_play(&node, (const uint8_t *)line, strlen(line));
}

static uint32_t next_datagram(size_t most) {
    return at_node_next_datagram(&node, &number, room, most, &length);
}

static uint32_t report(size_t most) {
    return at_node_report(&node, 12, room, most, &length);
}

static uint32_t timers(size_t most) {
    return at_node_timers(&node, room, most, &length);
}

static uint32_t show(const uint8_t *bytes, size_t byte_count, size_t most) {
    return at_node_show(bytes, byte_count, room, most, &length);
}

static uint32_t refusal(size_t most) {
    return at_node_refusal(&node, &number, room, most, &length);
}

/* The room, the number and the length, before a call that is to leave them. */
static void fill(void) {
    memset(room, 0xEE, sizeof room);
    number = 0xEE;
    length = 7777;
}

static void want_untouched(size_t wanted_length) {
    for (size_t i = 0; i < sizeof room; i++) want(room[i], 0xEE);
    want(number, 0xEE);
    want(length == wanted_length, 1);
}

/* No node stands in the handle. */
static void try_without_node(void) {
    fill();
    want(play("call zones"), AT_NODE_NOT_OPEN);
    want(at_node_receive(&node, room, 0), AT_NODE_NOT_OPEN);
    want(next_datagram(sizeof room), AT_NODE_NOT_OPEN);
    want(report(sizeof room), AT_NODE_NOT_OPEN);
    want(timers(sizeof room), AT_NODE_NOT_OPEN);
    want(refusal(sizeof room), AT_NODE_NOT_OPEN);
    at_node_close(&node);
    want(node.pointer == NULL, 1);
    want_untouched(7777);
}

/* An opening that fails leaves the handle as it is. Where there is memory, a text that is no setup is told as that, and
   so is a node that the setup lacks. */
static void try_faulty_setups(void) {
    void *before = node.pointer;
    for (int i = 0; i < FAULTY_SETUPS; i++) want(open_it(faulty_setups[i], 5), AT_NODE_NO_SETUP);
    want(open_it(setup, 0), AT_NODE_NO_SUCH_NODE);
    want(open_it(setup, 7), AT_NODE_NO_SUCH_NODE);
    want(open_it(setup, AT_NODE_EVERYONE), AT_NODE_NO_SUCH_NODE);
    want(node.pointer == before, 1);
}

/* A node stands there, and nothing happened to it. */
static void try_fresh_node(void) {
    fill();
    want(next_datagram(sizeof room), AT_NODE_MISSING);
    want(report(sizeof room), AT_NODE_MISSING);
    want(refusal(sizeof room), AT_NODE_MISSING);
    want(play(""), AT_NODE_NO_EVENT);
    want(play("call nothing"), AT_NODE_NO_EVENT);
    want(play("call zones\n"), AT_NODE_NO_EVENT);
    want(play("deliver 0"), AT_NODE_NO_EVENT);
    want(play("timer"), AT_NODE_NO_EVENT);
    want(play("timer release 129 65536.9 128 0"), AT_NODE_NO_EVENT);
    want_untouched(7777);
    want(timers(0), AT_NODE_OK);
    want_untouched(0);
}

/* A report and a datagram wait for more room, and an opening that fails leaves them there. */
static void try_small_rooms(void) {
    fill();
    want(play("call zones"), AT_NODE_OK);
    try_faulty_setups();
    want(report(10), AT_NODE_NO_ROOM);
    want_untouched(strlen("12 begun 0\n"));
    want(report(11), AT_NODE_OK);
    want(memcmp(room, "12 begun 0\n\xEE", 12), 0);
    fill();
    want(next_datagram(20), AT_NODE_NO_ROOM);
    want_untouched(21);
    want(next_datagram(21), AT_NODE_OK);
    want(number, 1);
    want(room[21], 0xEE);
    want(next_datagram(sizeof room), AT_NODE_MISSING);
}

/* The timers wait for more room too. One that is not listed does nothing. */
static void try_timers(void) {
    fill();
    want(timers(13), AT_NODE_NO_ROOM);
    want_untouched(14);
    want(timers(14), AT_NODE_OK);
    want(length == 14, 1);
    want(memcmp(room, "timer retry 0\n\xEE", 15), 0);
    want(play("timer release 129 65535.9 128 0"), AT_NODE_OK);
    want(report(sizeof room), AT_NODE_OK);
    want(memcmp(room, "12 refused 15\n", length), 0);
    want(next_datagram(sizeof room), AT_NODE_MISSING);
}

/* What bytes are is shown without a node, also of those that are refused. */
static void try_showing(void) {
    static const uint8_t zip[13] = {0, 13, 0, 0, 0, 10, 0, 10, 1, 5, 6, 6, 6};
    static const char shown[] = "ddp length 13 hops 0 sum none from 10.5.6 to 10.1.6 type 6 rest 0\nraw -\n";
    fill();
    want(show(zip, sizeof zip, sizeof shown - 2), AT_NODE_NO_ROOM);
    want_untouched(sizeof shown - 1);
    want(show(zip, sizeof zip, sizeof room), AT_NODE_OK);
    want(length == sizeof shown - 1, 1);
    want(memcmp(room, shown, length), 0);
    want(show(zip, 12, sizeof room), AT_NODE_OK);
    want(length == 10, 1);
    want(memcmp(room, "refused 1\n", length), 0);
}

/* A call that is refused has a number and a sentence. The number comes also where there is no room for the sentence. */
static void try_refusal(void) {
    want(play("call open 0"), AT_NODE_OK);
    fill();
    want(refusal(0), AT_NODE_NO_ROOM);
    want(number, 62);
    want(room[0], 0xEE);
    want(refusal(sizeof room), AT_NODE_OK);
    want(number, 62);
    printf("refused: %.*s (%u)\n", (int)length, (const char *)room, number);
}

static void want_refused(const uint8_t *bytes, size_t count, uint8_t wanted) {
    want(at_node_receive(&node, bytes, count), AT_NODE_OK);
    want(refusal(sizeof room), AT_NODE_OK);
    want(number, wanted);
}

/* Bytes of any length may come. What follows a datagram is padding. */
static void try_long_datagrams(void) {
    static uint8_t longest[1 << 20];
    fill();
    want_refused(longest, 0, 1);
    want_refused(longest, sizeof longest, 2);
    want(play("call zones"), AT_NODE_OK);
    want(next_datagram(sizeof room), AT_NODE_OK);
    memcpy(longest, room, length);
    want(open_it(setup, 1), AT_NODE_OK);
    want(at_node_receive(&node, longest, sizeof longest), AT_NODE_OK);
    want(report(sizeof room), AT_NODE_OK);
    want(memcmp(room, "12 served 1\n", length), 0);
    want_refused(longest, 12, 1);
}

/* A handle may be closed twice, and opened again. */
static void try_closing(void) {
    at_node_close(&node);
    want(node.pointer == NULL, 1);
    at_node_close(&node);
    want(node.pointer == NULL, 1);
    want(open_it(setup, 5), AT_NODE_OK);
    at_node_close(&node);
    want(node.pointer == NULL, 1);
}

int main(void) {
    want(at_node_version(), 2);
    try_without_node();
    try_faulty_setups();
    want(open_it(setup, 5), AT_NODE_OK);
    try_fresh_node();
    try_small_rooms();
    try_timers();
    try_showing();
    try_refusal();
    want(open_it(setup, 5), AT_NODE_OK);
    try_long_datagrams();
    try_closing();
    return 0;
}
