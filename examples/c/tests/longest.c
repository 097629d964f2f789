/* Brings about the longest list of timers and the longest report, which are as long as at_node.h says, and plays each
   timer of the list.

   To build it, with KIT the folder of the toolchain, after ./atnode lib:

       gcc -std=c99 -O2 -Iinclude -o longest examples/c/tests/longest.c crates/at_c/out/libat_c.a KIT/c/liblibc_c.a */
#include <stdio.h>
#include <stdlib.h>
#include <string.h>

#include "at_node.h"

enum { ROUTER, OTHER, ITEMS = 65535, MAX_LINE = 64, ZONE_SOCKET = 6, SERVICE = 129 };

/* Of each table as many entries as it holds, and numbers with as many digits as they can have. */
enum { TRANSACTIONS = 32, LOOKUPS = 8, ENDS = 16, RECORDS = 64, FIVE_DIGITS = 10000, THREE_DIGITS = 100 };

static const uint32_t LAST_EVENT = 4294967295u;

static const char setup[] =
    "net 10\n"
    "node 1 router zone Lab rooms 65535 65535\n"
    "node 5 zone Lab rooms 65535 65535\n"
    "zones Lab\n";
static at_node nodes[] = {AT_NODE_NONE, AT_NODE_NONE};
static const uint8_t numbers[] = {1, 5};
static uint8_t text[AT_NODE_MAX_REPORT];

static void fail(const char *what, const char *where) {
    fprintf(stderr, "longest: %s: %s\n", where, what);
    exit(1);
}

static void open_nodes(void) {
    for (int i = 0; i < 2; i++) {
        uint32_t status = at_node_open(&nodes[i], (const uint8_t *)setup, strlen(setup), numbers[i]);
        if (status != AT_NODE_OK) fail("not opened", "a node");
    }
}

static void close_nodes(void) {
    for (int i = 0; i < 2; i++) at_node_close(&nodes[i]);
}

static void drop_all(int which) {
    uint8_t to = 0, bytes[AT_NODE_MAX_DATAGRAM];
    size_t length = 0;
    while (at_node_next_datagram(&nodes[which], &to, bytes, sizeof bytes, &length) == AT_NODE_OK) continue;
}

/* Hands each node what the other sends, until both are silent. */
static void exchange(void) {
    uint8_t to = 0, bytes[AT_NODE_MAX_DATAGRAM];
    size_t length = 0;
    for (int silent = 0, from = 0; silent < 2; from = !from) {
        silent++;
        while (at_node_next_datagram(&nodes[from], &to, bytes, sizeof bytes, &length) == AT_NODE_OK) {
            if (at_node_receive(&nodes[!from], bytes, length) != AT_NODE_OK) fail("not received", "a datagram");
            silent = 0;
        }
    }
}

/* The report has to begin with this word. */
static void want_report(int which, const char *line, const char *word) {
    size_t length = 0;
    if (at_node_report(&nodes[which], 0, text, sizeof text, &length) != AT_NODE_OK) fail("no report", line);
    if (length < 2 + strlen(word) || memcmp(text + 2, word, strlen(word)) != 0) fail("another report", line);
}

static void play(int which, const char *line, const char *word) {
    if (at_node_play(&nodes[which], (const uint8_t *)line, strlen(line)) != AT_NODE_OK) fail("not played", line);
    want_report(which, line, word);
}

/* Plays a call for each of these numbers, which it is given in turn, and then the event that ends what it began. */
static void play_and_end(unsigned first, unsigned past, const char *call, const char *end, const char *word) {
    char line[MAX_LINE];
    for (unsigned number = first; number < past; number++) {
        play(ROUTER, call, "");
        snprintf(line, sizeof line, end, number);
        play(ROUTER, line, word);
        drop_all(ROUTER);
    }
}

static void play_often(unsigned count, const char *call) {
    for (unsigned i = 0; i < count; i++) play(ROUTER, call, "");
    drop_all(ROUTER);
}

/* An exactly-once request of another network comes, with this number: for a page of the zone list, or the service. */
static void ask(uint8_t socket, unsigned tid, const char *word) {
    uint8_t bytes[] = {0, 21, 0, 0, 0, 10, 255, 255, 1, 254, socket, 254, 3, 0x60, 1, 0, 0, 0, 0, 0, 0};
    bytes[15] = (uint8_t)(tid / 256);
    bytes[16] = (uint8_t)tid;
    if (socket == ZONE_SOCKET) {
        bytes[17] = 8;
        bytes[20] = 1;
    }
    if (at_node_receive(&nodes[ROUTER], bytes, sizeof bytes) != AT_NODE_OK) fail("not received", "a request");
    want_report(ROUTER, "a request", word);
}

static void fill_records(void) {
    char line[MAX_LINE];
    for (unsigned tid = ITEMS; tid > ITEMS - RECORDS; tid--) {
        ask(ZONE_SOCKET, tid, "served ");
        ask(SERVICE, tid, "asked 65535.254 ");
        snprintf(line, sizeof line, "call answer 65535.254 254 %u 00000000:-", tid);
        play(ROUTER, line, "answered ");
    }
    drop_all(ROUTER);
}

static size_t timers(size_t room, uint32_t wanted) {
    size_t length = 0;
    if (at_node_timers(&nodes[ROUTER], text, room, &length) != wanted) fail("another status", "at_node_timers");
    return length;
}

/* Plays each line of the list, and gives how many they are. None is refused. */
static int play_timers(const char *list, size_t length) {
    int count = 0;
    for (const char *line = list; line < list + length; count++) {
        char one[MAX_LINE];
        size_t size = (size_t)(strchr(line, '\n') - line);
        snprintf(one, sizeof one, "%.*s", (int)size, line);
        play(ROUTER, one, "");
        if (memcmp(text + 2, "refused", 7) == 0) fail("refused", one);
        line += size + 1;
    }
    return count;
}

static void check_timers(void) {
    static char list[AT_NODE_MAX_TIMERS + 1];
    open_nodes();
    play_and_end(0, FIVE_DIGITS, "call ask 5 129 00000000 - 1 alo 0", "timer retry %u", "failed ");
    play_often(TRANSACTIONS, "call ask 5 129 00000000 - 1 alo 0");
    play_and_end(0, THREE_DIGITS, "call find = Stream", "call finish %u", "found");
    play_often(LOOKUPS, "call find = Stream");
    play_and_end(1, FIVE_DIGITS, "call connect 5 130", "call close %u", "freed ");
    play_often(ENDS, "call connect 5 130");
    fill_records();
    timers(AT_NODE_MAX_TIMERS - 1, AT_NODE_NO_ROOM);
    size_t length = timers(AT_NODE_MAX_TIMERS, AT_NODE_OK);
    memcpy(list, text, length);
    int count = play_timers(list, length);
    printf("%d timers in %zu bytes, of %d at most\n", count, length, (int)AT_NODE_MAX_TIMERS);
    close_nodes();
}

static void check_report(void) {
    char *line = (char *)malloc(sizeof "call write 1" + 4 * ITEMS);
    if (line == NULL) fail("no memory", "a line");
    size_t length = (size_t)sprintf(line, "call write 1");
    for (int i = 0; i < ITEMS; i++) length += (size_t)sprintf(line + length, " end");
    open_nodes();
    play(OTHER, "call listen on", "done");
    play(ROUTER, "call connect 5 130", "opening 1");
    exchange();
    play(ROUTER, line, "wrote 65535");
    exchange();
    play(OTHER, "call read 1 65535", "read end");
    uint32_t status = at_node_report(&nodes[OTHER], LAST_EVENT, text, sizeof text - 1, &length);
    if (status != AT_NODE_NO_ROOM) fail("not too long for a room", "a report");
    status = at_node_report(&nodes[OTHER], LAST_EVENT, text, sizeof text, &length);
    if (status != AT_NODE_OK) fail("too long", "a report");
    printf("a report of %zu bytes, of %d at most\n", length, (int)AT_NODE_MAX_REPORT);
    free(line);
    close_nodes();
}

int main(void) {
    check_timers();
    check_report();
    return 0;
}
