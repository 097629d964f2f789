/* A node in a program, beside nodes of other programs: a running `atnode udp`, say. It looks a printer up, opens a
   stream to the one that it found, writes a line, reads a line of the printer, and closes. It prints what its node
   reports of each call, timer and datagram.

       ./on_udp FIRST OWN NODE..

   Node n is at port FIRST + n on 127.0.0.1, as docs/UDP.md says. This program is node OWN. It knows of the others that
   are named: what its node sends to everyone goes to each of them.

   To build it, with KIT the folder of the toolchain, after ./atnode lib:

       gcc -std=c99 -O2 -Iinclude -o on_udp examples/c/on_udp.c crates/at_c/out/libat_c.a KIT/c/liblibc_c.a */
#define _POSIX_C_SOURCE 200809L

#include <arpa/inet.h>
#include <netinet/in.h>
#include <poll.h>
#include <stdio.h>
#include <stdlib.h>
#include <string.h>
#include <sys/socket.h>
#include <time.h>
#include <unistd.h>

#include "alarms.h"
#include "at_node.h"

enum { MAX_OTHERS = 15, MAX_TEXT = 65536, MAX_LINE = 256, HIGHEST_NODE = 254, HIGHEST_FIRST = 65535 - HIGHEST_NODE };

/* The clock of the timers runs so many times as fast as real time, since loopback is faster than the cable of the book.
   The program gives up after so many milliseconds of its clock. */
enum { SPEED = 10, PATIENCE = 300000 };

static at_node node = AT_NODE_NONE;
static struct alarms alarms;
static int own_socket;
static unsigned first_port;
static unsigned others[MAX_OTHERS];
static int other_count;
static uint32_t event_count;
static char text[MAX_TEXT]; /* the report of the last event */
static long long ends_at;

static void fail(const char *why) {
    fprintf(stderr, "on_udp: %s\n", why);
    exit(1);
}

/* The milliseconds of a clock that is never set. */
static long long now(void) {
    struct timespec time;
    clock_gettime(CLOCK_MONOTONIC, &time);
    return SPEED * (time.tv_sec * 1000LL + time.tv_nsec / 1000000);
}

static struct sockaddr_in address_of(unsigned number) {
    struct sockaddr_in address;
    memset(&address, 0, sizeof address);
    address.sin_family = AF_INET;
    address.sin_port = htons((uint16_t)(first_port + number));
    address.sin_addr.s_addr = htonl(INADDR_LOOPBACK);
    return address;
}

/* A datagram that can't be sent is a lost one: the node's timers see to that. */
static void send_to(unsigned number, const uint8_t *bytes, size_t length) {
    struct sockaddr_in address = address_of(number);
    (void)sendto(own_socket, bytes, length, 0, (const struct sockaddr *)&address, sizeof address);
}

/* Sends all that waits in the node. */
static void send_all(void) {
    uint8_t bytes[AT_NODE_MAX_DATAGRAM] = {0};
    uint8_t to = 0;
    size_t length = 0;
    while (at_node_next_datagram(&node, &to, bytes, sizeof bytes, &length) == AT_NODE_OK) {
        if (to != AT_NODE_EVERYONE) send_to(to, bytes, length);
        for (int i = 0; to == AT_NODE_EVERYONE && i < other_count; i++) send_to(others[i], bytes, length);
    }
}

/* Prints what came of a call, a timer or a datagram, sends what the node has to send, and reads its timers. */
static void take(uint32_t status) {
    size_t length = 0;
    if (status == AT_NODE_OK) {
        status = at_node_report(&node, event_count++, (uint8_t *)text, sizeof text - 1, &length);
    }
    if (status != AT_NODE_OK) fail("a call of the library failed");
    text[length] = '\0';
    fputs(text, stdout);
    send_all();
    if (read_alarms(&alarms, &node, now()) != AT_NODE_OK) fail("the timers were not listed");
}

/* Whether the last report begins with this word. */
static int reports(const char *word) {
    const char *report = strchr(text, ' ') + 1;
    size_t length = strcspn(report, " \n");
    return strlen(word) == length && strncmp(report, word, length) == 0;
}

/* Plays a call or a timer. */
static void event(const char *line) {
    take(at_node_play(&node, (const uint8_t *)line, strlen(line)));
    if (reports("refused")) fail("the node refused a call");
}

/* Waits for a datagram up to this time, and gives it to the node. If none comes, the answer is 0. */
static int receive(long long until) {
    static uint8_t bytes[AT_NODE_MAX_DATAGRAM];
    struct pollfd waiting = {own_socket, POLLIN, 0};
    long long left = until - now();
    if (poll(&waiting, 1, left > 0 ? (int)(left / SPEED) + 1 : 0) <= 0) return 0;
    ssize_t length = recv(own_socket, bytes, sizeof bytes, MSG_DONTWAIT);
    if (length < 0) return 0;
    take(at_node_receive(&node, bytes, (size_t)length));
    if (reports("denied") || reports("closed")) fail("the other node ended the conversation");
    return 1;
}

/* Waits for a datagram up to the first alarm, and plays the timers that are due. The node has no clock: it lists which
   timers would do something. */
static void go_on(void) {
    const struct alarm *first = first_alarm(&alarms);
    if (now() > ends_at) fail("there was no answer in time");
    if (receive(first != NULL ? first->due : ends_at)) return;
    struct alarm *due = first_alarm(&alarms);
    if (due != NULL && due->due <= now()) event(fire(&alarms, due).line);
}

/* Waits until the node reports this. */
static void wait_for(const char *word) {
    do {
        go_on();
    } while (!reports(word));
}

/* Waits until this timer would do nothing more. */
static void wait_without(const char *timer) {
    for (size_t i = 0; i < alarms.count;) {
        if (strcmp(alarms.all[i].line, timer) != 0) {
            i++;
            continue;
        }
        go_on();
        i = 0;
    }
}

/* A node's first lookup is number 0, and its first end of a stream is number 1. */
static void look_printers_up(void) {
    event("call find = LaserWriter");
    wait_for("finds");
    event("call finish 0");
}

/* Writes a line as one message. The node has room for 64 items, and this program's lines are shorter. */
static void write_line(const char *line) {
    char call[MAX_LINE] = "call write 1 ";
    size_t length = strlen(call);
    for (; *line != '\0' && length + 7 < sizeof call; line++) length += sprintf(call + length, "%02X", *line & 0xFFu);
    strcpy(call + length, " end");
    event(call);
}

/* Reads until a message has ended. It can come in parts, and a segment that was heard may have been without any. */
static void read_line(void) {
    do {
        wait_for("heard");
        event("call read 1 64");
    } while (strstr(text, " end\n") == NULL);
}

static void talk(void) {
    look_printers_up();
    event("call open 0");
    wait_for("opened");
    write_line("print");
    read_line();
    wait_without("timer resend 1"); /* the other end has acknowledged all */
    event("call close 1"); /* tells the other end */
    event("call close 1"); /* frees this one */
}

static void open_node(unsigned number) {
    char setup[MAX_LINE];
    int length = snprintf(setup, sizeof setup, "net 10\nnode %u\n", number);
    struct sockaddr_in address = address_of(number);
    if (at_node_open(&node, (const uint8_t *)setup, (size_t)length, (uint8_t)number) != AT_NODE_OK) fail("no node");
    own_socket = socket(AF_INET, SOCK_DGRAM, 0);
    if (own_socket < 0 || bind(own_socket, (const struct sockaddr *)&address, sizeof address) != 0) {
        fail("the port of the node is not free");
    }
}

/* The number of a node, or of the port before that of node 1. */
static unsigned number_in(const char *word, unsigned most) {
    char *end;
    unsigned long number = strtoul(word, &end, 10);
    if (*word < '0' || *word > '9' || *end != '\0' || number > most) fail("usage: on_udp FIRST OWN NODE..");
    return (unsigned)number;
}

int main(int argc, char **argv) {
    if (argc < 3 || argc > 3 + MAX_OTHERS) fail("usage: on_udp FIRST OWN NODE..");
    first_port = number_in(argv[1], HIGHEST_FIRST);
    for (int i = 3; i < argc; i++) others[other_count++] = number_in(argv[i], HIGHEST_NODE);
    ends_at = now() + PATIENCE;
    setvbuf(stdout, NULL, _IOLBF, 0);
    open_node(number_in(argv[2], HIGHEST_NODE));
    talk();
    at_node_close(&node);
    close(own_socket);
    return 0;
}
