/* Gives nodes calls and datagrams, and lets each request for memory that a step makes fail in turn. The step is given
   again, and then has to report and send what it owes. Nothing is sent by a step that lacked memory. All memory is
   given back. The steps that need no memory are named, and what a node ignores or refuses takes none.

   To build it, with KIT the folder of the toolchain, after ./atnode lib:

       gcc -std=c99 -O2 -Iinclude -Wl,--wrap=malloc,--wrap=realloc,--wrap=free -o steps \
           examples/c/tests/steps.c crates/at_c/out/libat_c.a KIT/c/liblibc_c.a */
#include <stdio.h>
#include <stdlib.h>
#include <string.h>

#include "at_node.h"
#include "../refusing.h"

enum { MAX_TEXT = 1024, MAX_STEPS = 32, NONE = -1 };

/* What a node is given, which is a call, or a datagram in hexadecimal; what it reports; and what it sends, if so. */
struct step {
    const char *given, *report, *sent;
};

static const char setup[] = "net 10\nnode 1 router zone Lab\nnode 5 zone Lab\nzones Lab Office\n";

/* Node 5 reads the zone list, picks a zone, finds a name there and connects to it. */
static const struct step session[] = {
    {"call pick Office", "refused 61", ""},
    {"call zones", "begun 0", "00156711000A000A01050680034001000008000001"},
    {"0020CA71000A000A05018006039000000001000002034C6162064F6666696365", "zones Lab Office", ""},
    {"call pick Attic", "refused 61", ""},
    {"call pick oFFICE", "done", ""},
    {"call find = Stream", "looking 0", "0024B24D000A000A01050202021100000A050200013D0653747265616D066F4646494345"},
    {"00273066000A000A05070202023100000A07820004436861740653747265616D064F6666696365", "finds 1", ""},
    {"call open 0", "refused 62", ""},
    {"call finish 0", "found Chat:Stream@Office,7,130,0", ""},
    {"call open 1", "refused 62", ""},
    {"call open 0", "opening 1", "00227DD4000A000A0705828207000100000000000000000040810100000000000000"},
};

/* Node 1, the router, hears packets of each kind. */
static const struct step receptions[] = {
    /* A request for the zone list. */
    {"00156711000A000A01050680034001000008000001", "served 1",
     "0020CA71000A000A05018006039000000001000002034C6162064F6666696365"},
    /* Two pages of a zone list. The second one is the last. */
    {"call zones", "begun 0", "00152711000A000A01010680034001000008000001"},
    {"001B9B81000A000A01018006039000000000000001054174746963", "begun 1",
     "00152733000A000A01010680034001000108000002"},
    {"0019E90D000A000A01018006039000000101000001034C6162", "zones Attic Lab", ""},
    /* A LkUp that a name answers, and a BrRq. */
    {"call register Chat Stream 130", "done", ""},
    {"001F7CB2000A000A01050202022103000A050200013D0653747265616D012A", "names 1",
     "0024D584000A000A05010202023103000A01820004436861740653747265616D034C6162"},
    {"001F7C74000A000A01050202021104000A050200013D0653747265616D012A", "relayed",
     "0021EE4B000A000AFF010202022104000A050200013D0653747265616D034C6162"},
    /* A reply with two finds. */
    {"call find = Stream", "looking 0", "001F7B6B000A000A01010202021100000A010200013D0653747265616D012A"},
    {"00395512000A000A01070202023200000A07820004436861740653747265616D034C6162000A0783000454616C6B06537472"
     "65616D034C6162", "finds 2",
     ""},
    {"call finish 0", "found Chat:Stream@Lab,7,130,0 Talk:Stream@Lab,7,131,0", ""},
    /* A request for the service. */
    {"0017003F000A000A010581800340010007000000006869", "asked 5 128 7 00000000 6869", ""},
    /* A response of two packets. */
    {"call ask 7 129 00000000 - 2 alo 0", "begun 2", "0015BFD3000A000A07018180034003000200000000"},
    {"00163569000A000A0107808103800000020000000061", "kept", ""},
    {"0016566B000A000A0107808103900100020000000062", "response 2 00000000:61 00000000:62", ""},
    /* A request for a connection that is denied, one that makes an end, the same again, and what opens the end. */
    {"002265D4000A000A0105828207000100000000000000000040810100000000000000", "turned",
     "002273E3000A000A0501828207000000000000000000000000840100000100000000"},
    {"call listen on", "done", ""},
    {"002265D4000A000A0105828207000100000000000000000040810100000000000000", "made 1",
     "002271F4000A000A0501828207000100000000000000000040830100000100000000"},
    {"002265D4000A000A0105828207000100000000000000000040810100000000000000", "again",
     "002271F4000A000A0501828207000100000000000000000040830100000100000000"},
    {"002267F4000A000A0105828207000100000000000000000040820100000100000000", "opened 1", ""},
    /* Data, and a reset behind more data that did not come. */
    {"001C52FD000A000A0105828207000100000000000000000040606869", "heard 1 3",
     "001AD48E000A000A050182820700010000000000000003003D80"},
    {"001AD96E000A000A010582820700010000000500000000004086", "dropped 1",
     "001AD4C8000A000A050182820700010000000000000005004087"},
};

/* What node 1 is given before what has no effect: it reads the zone list, has a name and looks names up, and takes
   requests for connections. */
static const struct step before[] = {
    {"call zones", "begun 0", "00152711000A000A01010680034001000008000001"},
    {"call register Chat Stream 130", "done", ""},
    {"call find = Stream", "looking 0", "001F7B6B000A000A01010202021100000A010200013D0653747265616D012A"},
    {"call listen on", "done", ""},
};

/* Packets that it ignores or refuses then. */
static const struct step ignored[] = {
    /* A datagram for another node. */
    {"00150000000A000A07058180034001000000000000", "ignored", ""},
    /* One of a protocol that is not spoken. */
    {"000F0000000A000A01058282056869", "ignored", ""},
    /* A request to a socket that none has. */
    {"00150000000A000A0105C880034001000000000000", "ignored", ""},
    /* A response to nothing that is open. */
    {"00150000000A000A01058006039000006300000000", "ignored", ""},
    /* A release of a request that did not come. */
    {"00150000000A000A0105818003C000006300000000", "ignored", ""},
    /* A packet for names at another socket. */
    {"001F0000000A000A01050302022101000A050200013D0653747265616D012A", "ignored", ""},
    /* A lookup that no name matches. */
    {"00200000000A000A01050202022101000A050200013D075072696E746572012A", "ignored", ""},
    /* A reply to a lookup that is not open. */
    {"00240000000A000A01050202023163000A05820004436861740653747265616D034C6162", "ignored", ""},
    /* A reply without a name that matches. */
    {"00250000000A000A01050202023100000A0582000443686174075072696E746572034C6162", "ignored", ""},
    /* A segment to no end. */
    {"001C0000000A000A0105828207006300000000000000000040006869", "ignored", ""},
    /* Fewer bytes than a header. */
    {"00150000", "refused 1", ""},
    /* A wrong checksum. */
    {"00150001000A000A01058180034001000000000000", "refused 4", ""},
    /* Half a packet of ATP. */
    {"000F0000000A000A01058180034001", "refused 10", ""},
    /* A packet of ATP without a function. */
    {"00150000000A000A01058180030001000000000000", "refused 11", ""},
    /* Half a packet of NBP. */
    {"000E0000000A000A010502020221", "refused 20", ""},
    /* A lookup with two tuples. */
    {"00310000000A000A01050202022201000A050200013D075072696E746572012A000A050200013D075072696E746572012A",
     "refused 22", ""},
    /* A request for no zone list. */
    {"00150000000A000A01050680034001000707000001", "ignored", ""},
    /* Half a segment. */
    {"000F0000000A000A01058282070001", "refused 40", ""},
    /* A segment with attention. */
    {"001A0000000A000A010582820700010000000000000000004050", "refused 43", ""},
};

enum {
    SESSION = sizeof session / sizeof *session,
    RECEPTIONS = sizeof receptions / sizeof *receptions,
    BEFORE = sizeof before / sizeof *before,
    IGNORED = sizeof ignored / sizeof *ignored
};

static at_node node = AT_NODE_NONE;

static void fail(const char *what, const struct step *step) {
    fprintf(stderr, "steps: %s: %s, when request %ld was refused\n", step->given, what, refused_at);
    exit(1);
}

static int is_call(const struct step *step) {
    return strncmp(step->given, "call ", 5) == 0;
}

static int value_of(char digit) {
    return digit <= '9' ? digit - '0' : digit - 'A' + 10;
}

/* The bytes of a datagram in hexadecimal. */
static size_t bytes_of(const char *digits, uint8_t *bytes) {
    size_t length = strlen(digits) / 2;
    for (size_t i = 0; i < length; i++, digits += 2) {
        bytes[i] = (uint8_t)(16 * value_of(digits[0]) + value_of(digits[1]));
    }
    return length;
}

/* Gives the node a step, in which its requests for memory count. */
static uint32_t give(const struct step *step) {
    uint8_t bytes[AT_NODE_MAX_DATAGRAM] = {0};
    size_t length = is_call(step) ? 0 : bytes_of(step->given, bytes);
    requests_count = 1;
    uint32_t status = is_call(step) ? at_node_play(&node, (const uint8_t *)step->given, strlen(step->given))
                                    : at_node_receive(&node, bytes, length);
    requests_count = 0;
    return status;
}

static void want_report(const struct step *step) {
    uint8_t text[MAX_TEXT] = {0};
    char wanted[MAX_TEXT];
    size_t length = 0;
    snprintf(wanted, sizeof wanted, "7 %s\n", step->report);
    if (at_node_report(&node, 7, text, sizeof text, &length) != AT_NODE_OK) fail("no report", step);
    if (length != strlen(wanted) || memcmp(text, wanted, length) != 0) fail("another report", step);
}

static void want_none_sent(const struct step *step) {
    uint8_t to = 0, bytes[AT_NODE_MAX_DATAGRAM] = {0};
    size_t length = 0;
    if (at_node_next_datagram(&node, &to, bytes, sizeof bytes, &length) != AT_NODE_MISSING) fail("too much sent", step);
}

/* The datagram goes to the node that its header names. */
static void want_sent(const struct step *step) {
    uint8_t to = 0, bytes[AT_NODE_MAX_DATAGRAM] = {0}, wanted[AT_NODE_MAX_DATAGRAM] = {0};
    size_t length = 0, wanted_length = bytes_of(step->sent, wanted);
    if (at_node_next_datagram(&node, &to, bytes, sizeof bytes, &length) != AT_NODE_OK) fail("nothing sent", step);
    if (length != wanted_length || memcmp(bytes, wanted, length) != 0) fail("another datagram", step);
    if (to != wanted[8]) fail("a datagram to another node", step);
}

/* Gives the node a step, again if it lacked memory. Returns whether it did. */
static int lacks(const struct step *step) {
    uint32_t status = give(step);
    int lacked = status == AT_NODE_NO_MEMORY;
    if (lacked) {
        want_none_sent(step);
        status = give(step);
    }
    if (status != AT_NODE_OK) fail("no step", step);
    want_report(step);
    if (*step->sent != '\0') want_sent(step);
    want_none_sent(step);
    return lacked;
}

/* Gives a new node these steps. Returns which of them lacked memory, or NONE. */
static int replay(uint8_t number, const struct step *steps, int count) {
    int lacked = NONE;
    asked = 0;
    if (at_node_open(&node, (const uint8_t *)setup, sizeof setup - 1, number) != AT_NODE_OK) fail("no node", steps);
    for (int i = 0; i < count; i++) {
        if (!lacks(&steps[i])) continue;
        if (lacked != NONE) fail("memory was lacking twice", &steps[i]);
        lacked = i;
    }
    if (standing == 0) fail("a node without memory", steps);
    if ((lacked != NONE) != (refused_at != 0 && refused_at <= asked)) fail("a refusal that was not told", steps);
    at_node_close(&node);
    if (standing != 0) fail("blocks still stand", steps);
    return lacked;
}

/* Refuses each request of these steps in turn, up to a run in which none is. Returns how many there were, and which of
   the steps lacked memory. */
static long refuse_each(uint8_t number, const struct step *steps, int count, char *lacking) {
    memset(lacking, 0, MAX_STEPS);
    for (refused_at = 1;; refused_at++) {
        int lacked = replay(number, steps, count);
        if (lacked == NONE) return refused_at - 1;
        lacking[lacked] = 1;
    }
}

/* Whether a step needs no memory: to listen, to hear what opens an end, and to answer a segment. The answers go where
   there is room already, since the node sent as much before. */
static int needs_none(const struct step *step) {
    static const char *const reports[] = {"opened 1", "again", "heard 1 3", "dropped 1"};
    for (size_t i = 0; i < sizeof reports / sizeof *reports; i++) {
        if (strcmp(step->report, reports[i]) == 0) return 1;
    }
    return strcmp(step->given, "call listen on") == 0;
}

/* Each packet and call lacks memory in some run, but for those that need none. */
static void try_receptions(void) {
    char lacking[MAX_STEPS];
    refuse_each(1, receptions, RECEPTIONS, lacking);
    for (int i = 0; i < RECEPTIONS; i++) {
        if (lacking[i] == needs_none(&receptions[i])) fail("needs no memory, or needs some", &receptions[i]);
    }
}

static void try_session(void) {
    char lacking[MAX_STEPS];
    if (refuse_each(5, session, SESSION, lacking) <= 10) fail("ten requests at most", session);
}

/* A packet that is ignored or refused takes no memory. */
static void try_ignored(void) {
    refused_at = 0;
    for (int i = 0; i < IGNORED; i++) {
        at_node_open(&node, (const uint8_t *)setup, sizeof setup - 1, 1);
        for (int j = 0; j < BEFORE; j++) lacks(&before[j]);
        asked = 0;
        lacks(&ignored[i]);
        if (asked != 0) fail("takes memory", &ignored[i]);
        at_node_close(&node);
    }
    if (standing != 0) fail("blocks still stand", ignored);
}

int main(void) {
    requests_count = 0;
    try_session();
    try_receptions();
    try_ignored();
    puts("each step that lacked memory did all when it came again; what has no effect takes none; nothing is left");
    return 0;
}
