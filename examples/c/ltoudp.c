/* A node on LocalTalk over UDP, the cable of emulators and bridges, which docs/LTOUDP.md describes. It asks for its
   number, and plays the lines of standard input as calls, such as "find = LaserWriter". It prints what its node
   reports, answers what its service is asked with the byte 2A, and reads what comes by streams. At the end of its lines
   it ends.

       ./ltoudp NUMBER [INTERFACE [NET ROUTER ZONE]]

   INTERFACE is the address of an interface, if the cable is not at that of the multicast route; 0.0.0.0 is the latter.
   The other three say where the node is on the cable of a router: the numbers of the network and of the router, and the
   name of the node's zone, with %20 for a space. Without them nobody finds it there.

   To build it, once `./atnode install` is done:

       gcc -std=c99 -O2 -o ltoudp examples/c/ltoudp.c $(pkg-config --cflags --libs at_node) */
#define _DEFAULT_SOURCE

#include <arpa/inet.h>
#include <netinet/in.h>
#include <poll.h>
#include <stdio.h>
#include <stdlib.h>
#include <string.h>
#include <sys/socket.h>
#include <time.h>
#include <unistd.h>

#include "alarms.h"
#include "at_node.h"
#include "localtalk.h"

enum { SENDER = 4, PORT = 1954 };
/* A number is asked for so many times, with so many milliseconds for each answer. */
enum { ASKINGS = 8, PATIENCE = 200 };
enum { MAX_OWN = 64, MAX_TEXT = 16384, MAX_LINE = 4096, MAX_SETUP = 512 };

struct datagram {
    size_t length;
    uint8_t bytes[AT_NODE_MAX_DATAGRAM];
};

static at_node node = AT_NODE_NONE;
static struct alarms alarms;
static uint8_t number;
/* Without a router, whose number is 0 then, others never see the network's. */
static unsigned network = 10;
static uint8_t router;
static int wire;
static uint8_t sender[SENDER];
static struct sockaddr_in group;
/* What the node sent to itself, which the wire does not bring back. */
static struct datagram own[MAX_OWN];
static size_t own_count;
static char text[MAX_TEXT];

static void fail(const char *why) {
    fprintf(stderr, "ltoudp: %s\n", why);
    exit(1);
}

static long long now(void) {
    struct timespec time;
    clock_gettime(CLOCK_MONOTONIC, &time);
    return time.tv_sec * 1000LL + time.tv_nsec / 1000000;
}

static void join(const char *interface) {
    int on = 1;
    struct ip_mreq member;
    memset(&group, 0, sizeof group);
    group.sin_family = AF_INET;
    group.sin_port = htons(PORT);
    wire = socket(AF_INET, SOCK_DGRAM, 0);
    setsockopt(wire, SOL_SOCKET, SO_REUSEADDR, &on, sizeof on);
    setsockopt(wire, SOL_SOCKET, SO_REUSEPORT, &on, sizeof on);
    if (bind(wire, (struct sockaddr *)&group, sizeof group) != 0) fail("port 1954 is in use and not shared");
    group.sin_addr.s_addr = member.imr_multiaddr.s_addr = inet_addr("239.192.76.84");
    member.imr_interface.s_addr = interface != NULL ? inet_addr(interface) : htonl(INADDR_ANY);
    if (interface != NULL) setsockopt(wire, IPPROTO_IP, IP_MULTICAST_IF, &member.imr_interface, sizeof(struct in_addr));
    if (setsockopt(wire, IPPROTO_IP, IP_ADD_MEMBERSHIP, &member, sizeof member) != 0) fail("no multicast route");
}

/* Tells this program from all others on the cable, also from those that have its process number elsewhere. */
static void draw_sender(void) {
    FILE *random = fopen("/dev/urandom", "rb");
    if (random == NULL || fread(sender, 1, SENDER, random) != SENDER) fail("there are no random bytes");
    fclose(random);
}

/* A frame that can't be sent is a lost one: the timers of the node see to that. */
static void send_frame(uint8_t to, uint8_t type, const uint8_t *bytes, size_t length) {
    uint8_t payload[SENDER + FRAME + AT_NODE_MAX_DATAGRAM];
    memcpy(payload, sender, SENDER);
    payload[SENDER] = to;
    payload[SENDER + 1] = number;
    payload[SENDER + 2] = type;
    if (length > 0) memcpy(payload + SENDER + FRAME, bytes, length);
    (void)sendto(wire, payload, SENDER + FRAME + length, 0, (struct sockaddr *)&group, sizeof group);
}

/* The length of a frame of others that came within some milliseconds, or 0 if none did. */
static size_t receive_frame(uint8_t *frame, uint8_t *from, long long milliseconds) {
    uint8_t payload[SENDER + MAX_FRAME];
    struct pollfd waiting = {wire, POLLIN, 0};
    if (poll(&waiting, 1, (int)milliseconds) <= 0) return 0;
    ssize_t length = recv(wire, payload, sizeof payload, MSG_DONTWAIT);
    if (length < SENDER + FRAME || memcmp(payload, sender, SENDER) == 0) return 0;
    memcpy(from, payload, SENDER);
    memcpy(frame, payload + SENDER, (size_t)length - SENDER);
    return (size_t)length - SENDER;
}

/* Whether a frame says that the number that is asked for is another's. Of two that ask at once the greater sender gets
   it, and answers the other. */
static int is_denied(const uint8_t *frame, const uint8_t *from) {
    if (frame[0] != number) return 0;
    if (frame[2] == ENQ && memcmp(from, sender, SENDER) <= 0) send_frame(number, ACK, NULL, 0);
    return frame[2] == ACK || (frame[2] == ENQ && memcmp(from, sender, SENDER) > 0);
}

static void take_number(void) {
    uint8_t frame[MAX_FRAME], from[SENDER];
    for (int i = 0; i < ASKINGS; i++) {
        long long end = now() + PATIENCE;
        send_frame(number, ENQ, NULL, 0);
        for (long long left = PATIENCE; left > 0; left = end - now()) {
            if (receive_frame(frame, from, left) > 0 && is_denied(frame, from)) fail("the node number is taken");
        }
    }
}

/* Sends a datagram with the short header, or to another network with the long one, by way of the router. Without a
   router the network is 0 in the tuples of names. */
static void send_datagram(uint8_t to, uint8_t *bytes, size_t length) {
    if (router != 0 && two_bytes(bytes + 4) != network) {
        send_frame(router, LONG, bytes, length);
        return;
    }
    uint8_t *with_short_header = short_of(bytes, &length, router != 0 ? 0 : network);
    send_frame(to, SHORT, with_short_header, length);
}

static void keep_own(const uint8_t *bytes, size_t length) {
    if (own_count == MAX_OWN) return;
    own[own_count].length = length;
    memcpy(own[own_count++].bytes, bytes, length);
}

static void send_all(void) {
    uint8_t bytes[AT_NODE_MAX_DATAGRAM] = {0};
    uint8_t to = 0;
    size_t length = 0;
    while (at_node_next_datagram(&node, &to, bytes, sizeof bytes, &length) == AT_NODE_OK) {
        if (to == number || to == AT_NODE_EVERYONE) keep_own(bytes, length);
        if (to != number) send_datagram(to, bytes, length);
    }
}

static void play(const char *line);

/* Does what a report asks for: a request is answered, and what came by a stream is read. */
static void follow(const char *report) {
    char who[16], line[64];
    unsigned socket, transaction, end;
    if (sscanf(report, "asked %15s %u %u", who, &socket, &transaction) == 3) {
        snprintf(line, sizeof line, "call answer %s %u %u 00000000:2A", who, socket, transaction);
        play(line);
    } else if (sscanf(report, "heard %u", &end) == 1) {
        snprintf(line, sizeof line, "call read %u 64", end);
        play(line);
    }
}

/* Prints what came of a call, a timer or a datagram, sends what there is to send, and reads the timers. */
static void take(uint32_t status) {
    size_t length = 0;
    if (status == AT_NODE_OK) status = at_node_report(&node, 0, (uint8_t *)text, sizeof text - 1, &length);
    if (status != AT_NODE_OK) fail("a call of the library failed");
    text[length] = '\0';
    fputs(text + 2, stdout);
    send_all();
    if (read_alarms(&alarms, &node, now()) != AT_NODE_OK) fail("the timers were not listed");
    follow(text + 2);
}

static void play(const char *line) {
    uint32_t status = at_node_play(&node, (const uint8_t *)line, strlen(line));
    if (status == AT_NODE_NO_EVENT) {
        fprintf(stderr, "ltoudp: this is no call: %s\n", line);
    } else {
        take(status);
    }
}

/* Takes a frame. A datagram with the long header is handed on as it is, and may be of any network. */
static void take_frame(const uint8_t *frame, size_t length) {
    uint8_t bytes[AT_NODE_MAX_DATAGRAM];
    if (frame[0] != number && frame[0] != AT_NODE_EVERYONE) return;
    if (frame[2] == ENQ && frame[0] == number) {
        send_frame(number, ACK, NULL, 0);
    } else if (frame[2] == SHORT) {
        size_t whole = long_of(frame, length, bytes, network);
        if (whole > 0) take(at_node_receive(&node, bytes, whole));
    } else if (frame[2] == LONG) {
        take(at_node_receive(&node, frame + FRAME, length - FRAME));
    }
}

static void take_own(void) {
    for (size_t i = 0; i < own_count; i++) {
        struct datagram first = own[i];
        take(at_node_receive(&node, first.bytes, first.length));
    }
    own_count = 0;
}

/* Plays the lines that have come. The answer is 0 at their end. */
static int play_lines(void) {
    static char lines[MAX_LINE];
    static size_t count;
    char call[MAX_LINE + 8];
    ssize_t more = read(STDIN_FILENO, lines + count, sizeof lines - count);
    if (more <= 0) return 0;
    count += (size_t)more;
    for (char *end; (end = (char *)memchr(lines, '\n', count)) != NULL;) {
        *end = '\0';
        snprintf(call, sizeof call, "call %s", lines);
        count -= (size_t)(end + 1 - lines);
        memmove(lines, end + 1, count);
        play(call);
    }
    if (count == sizeof lines) fail("a line is too long");
    return 1;
}

static void fire_due(void) {
    for (struct alarm *due; (due = first_alarm(&alarms)) != NULL && due->due <= now();) {
        struct alarm fired = fire(&alarms, due);
        play(fired.line);
    }
}

/* Waits for a frame, a line or the first alarm, and does what is due. The answer is 0 at the end of the lines. */
static int go_on(void) {
    uint8_t frame[MAX_FRAME], from[SENDER];
    struct pollfd waiting[] = {{wire, POLLIN, 0}, {STDIN_FILENO, POLLIN, 0}};
    const struct alarm *first = first_alarm(&alarms);
    long long left = first == NULL ? -1 : first->due - now();
    int is_there = 1;
    if (first != NULL && left < 0) left = 0;
    poll(waiting, 2, own_count > 0 ? 0 : (int)left);
    if (waiting[0].revents != 0) {
        size_t length = receive_frame(frame, from, 0);
        if (length > 0) take_frame(frame, length);
    }
    if (waiting[1].revents != 0) is_there = play_lines();
    take_own();
    fire_due();
    return is_there;
}

/* A number of the command line, from 1 on. */
static unsigned number_of(const char *word, unsigned most) {
    char *end;
    unsigned long value = strtoul(word, &end, 10);
    if (*end != '\0' || value < 1 || value > most) fail("usage: ltoudp NUMBER [INTERFACE [NET ROUTER ZONE]]");
    return (unsigned)value;
}

/* Opens the node, of this zone if there is a router. */
static void open_node(const char *zone) {
    char setup[MAX_SETUP];
    int length = zone == NULL ? snprintf(setup, sizeof setup, "net %u\nnode %u\n", network, number)
                              : snprintf(setup, sizeof setup, "net %u\nnode %u router zone %s\nnode %u zone %s\n",
                                         network, router, zone, number, zone);
    if (length >= MAX_SETUP) fail("the name of the zone is too long");
    if (at_node_open(&node, (const uint8_t *)setup, (size_t)length, number) != AT_NODE_OK) fail("no node");
}

int main(int argc, char **argv) {
    int is_routed = argc == 6;
    number = (uint8_t)number_of(argc == 2 || argc == 3 || is_routed ? argv[1] : "", 254);
    if (is_routed) {
        network = number_of(argv[3], 65535);
        router = (uint8_t)number_of(argv[4], 254);
    }
    setvbuf(stdout, NULL, _IOLBF, 0);
    draw_sender();
    join(argc > 2 ? argv[2] : NULL);
    take_number();
    open_node(is_routed ? argv[5] : NULL);
    while (go_on()) continue;
    at_node_close(&node);
    close(wire);
    return 0;
}
