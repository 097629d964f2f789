/* Measures nodes of the library for C, by hand:

       ./nodes read              what a node takes for a datagram, beside the datagram's checksum alone
       ./nodes udp PORT ROUNDS   two nodes that exchange zone requests and their answers over UDP, over and over

   Node n is at port PORT + n on 127.0.0.1. bench/udp.py builds this program and runs it. To build it by hand, with KIT
   the folder of the toolchain, after ./atnode lib:

       gcc -std=c99 -O2 -Iinclude -o nodes bench/nodes.c crates/at_c/out/libat_c.a KIT/c/liblibc_c.a */
#define _POSIX_C_SOURCE 200809L

#include <arpa/inet.h>
#include <netinet/in.h>
#include <stdio.h>
#include <stdlib.h>
#include <string.h>
#include <sys/socket.h>
#include <time.h>
#include <unistd.h>

#include "at_node.h"

/* The router of the zones Lab and Office, and the node that asks it. */
enum { ROUTER = 1, ASKER = 5 };

/* How many different datagrams are read, and how often each. Every one has a header of 13 bytes. */
enum { DATAGRAMS = 64, PASSES = 10000, HEADER = 13, AFTER_SUM = 4 };

static const char setup[] = "net 10\nnode 1 router zone Lab\nnode 5 zone Lab\nzones Lab Office\n";

/* A node, its socket, and room for one datagram, with one byte more, which a datagram that is too long fills. The room
   is cleared once, and used again for each datagram. */
struct seat {
    at_node node;
    int socket;
    uint8_t bytes[AT_NODE_MAX_DATAGRAM + 1];
};

static unsigned first_port;
static unsigned long sent_count, idle_count;

static void fail(const char *why) {
    fprintf(stderr, "nodes: %s\n", why);
    exit(1);
}

static void want(uint32_t status) {
    if (status != AT_NODE_OK) fail("a call of the library failed");
}

static void open_node(at_node *node, uint8_t number) {
    want(at_node_open(node, (const uint8_t *)setup, sizeof setup - 1, number));
}

/* ---- reading */

/* The checksum of the standard, over what stands after it: each byte is added, and then the sum is rotated. */
static uint16_t rotating_sum(const uint8_t *bytes, size_t length) {
    uint16_t sum = 0;
    for (size_t i = 0; i < length; i++) {
        sum = (uint16_t)(sum + bytes[i]);
        sum = (uint16_t)(sum << 1 | sum >> 15);
    }
    return sum == 0 ? 0xFFFF : sum;
}

/* Writes a datagram of this many bytes, with data of this byte, to a socket that nothing listens at. */
static void write_datagram(uint8_t *bytes, size_t length, uint8_t byte) {
    const uint8_t header[HEADER] = {(uint8_t)(length >> 8), (uint8_t)length, 0, 0, 0, 10, 0, 10, ASKER, 9, 200, 128, 1};
    memset(bytes, byte, length);
    memcpy(bytes, header, HEADER);
    uint16_t sum = rotating_sum(bytes + AFTER_SUM, length - AFTER_SUM);
    bytes[2] = (uint8_t)(sum >> 8);
    bytes[3] = (uint8_t)sum;
}

/* Nanoseconds of the processor since the program began. */
static double now(void) {
    struct timespec time;
    clock_gettime(CLOCK_PROCESS_CPUTIME_ID, &time);
    return (double)time.tv_sec * 1e9 + (double)time.tv_nsec;
}

static uint8_t datagrams[DATAGRAMS][AT_NODE_MAX_DATAGRAM];

/* What it takes to add up the bytes of a datagram, as its checksum does. */
static double time_sums(size_t length) {
    volatile unsigned total = 0;
    double begun = now();
    for (int pass = 0; pass < PASSES; pass++) {
        for (int i = 0; i < DATAGRAMS; i++) total += rotating_sum(datagrams[i] + AFTER_SUM, length - AFTER_SUM);
    }
    return (now() - begun) / PASSES / DATAGRAMS;
}

/* What it takes a node to read a datagram, and to find that it is for nobody. */
static double time_reads(at_node *node, size_t length) {
    char text[64] = {0};
    size_t told = 0;
    double begun = now();
    for (int pass = 0; pass < PASSES; pass++) {
        for (int i = 0; i < DATAGRAMS; i++) want(at_node_receive(node, datagrams[i], length));
    }
    double taken = now() - begun;
    want(at_node_report(node, 0, (uint8_t *)text, sizeof text - 1, &told));
    if (strcmp(text, "0 ignored\n") != 0) fail("a datagram was not read");
    return taken / PASSES / DATAGRAMS;
}

static void time_length(at_node *node, size_t length) {
    for (int i = 0; i < DATAGRAMS; i++) write_datagram(datagrams[i], length, (uint8_t)i);
    double sum = time_sums(length), read = time_reads(node, length);
    printf("%zu bytes: sum %.0f, node %.0f nanoseconds a datagram\n", length, sum, read);
}

static void measure_reading(void) {
    at_node node = AT_NODE_NONE;
    open_node(&node, ASKER);
    time_length(&node, HEADER);
    time_length(&node, AT_NODE_MAX_DATAGRAM);
    at_node_close(&node);
}

/* ---- over UDP */

static struct sockaddr_in address_of(unsigned number) {
    struct sockaddr_in address;
    memset(&address, 0, sizeof address);
    address.sin_family = AF_INET;
    address.sin_port = htons((uint16_t)(first_port + number));
    address.sin_addr.s_addr = htonl(INADDR_LOOPBACK);
    return address;
}

static void open_seat(struct seat *seat, uint8_t number) {
    struct sockaddr_in address = address_of(number);
    open_node(&seat->node, number);
    seat->socket = socket(AF_INET, SOCK_DGRAM, 0);
    if (seat->socket < 0 || bind(seat->socket, (const struct sockaddr *)&address, sizeof address) != 0) {
        fail("the port of a node is not free");
    }
}

static void close_seat(struct seat *seat) {
    at_node_close(&seat->node);
    close(seat->socket);
}

/* Sends all that waits in a node. */
static void send_all(struct seat *seat) {
    uint8_t to = 0;
    size_t length = 0;
    while (at_node_next_datagram(&seat->node, &to, seat->bytes, sizeof seat->bytes, &length) == AT_NODE_OK) {
        struct sockaddr_in address = address_of(to);
        ssize_t gone = sendto(seat->socket, seat->bytes, length, 0, (const struct sockaddr *)&address, sizeof address);
        if (gone != (ssize_t)length) fail("a datagram could not be sent");
        sent_count++;
    }
}

/* Takes a datagram that waits at the socket, if one does, and sends what comes of it. */
static void poll_once(struct seat *seat) {
    ssize_t length = recv(seat->socket, seat->bytes, sizeof seat->bytes, MSG_DONTWAIT);
    if (length < 0) {
        idle_count++;
        return;
    }
    want(at_node_receive(&seat->node, seat->bytes, (size_t)length));
    send_all(seat);
}

static void exchange(long rounds) {
    static const uint8_t call[] = "call zones";
    struct seat router = {AT_NODE_NONE, -1, {0}}, asker = {AT_NODE_NONE, -1, {0}};
    open_seat(&router, ROUTER);
    open_seat(&asker, ASKER);
    for (long i = 0; i < rounds; i++) {
        want(at_node_play(&asker.node, call, sizeof call - 1));
        send_all(&asker);
        poll_once(&router);
        poll_once(&asker);
    }
    close_seat(&asker);
    close_seat(&router);
    printf("sent %lu idle %lu\n", sent_count, idle_count);
}

int main(int argc, char **argv) {
    if (argc == 2 && strcmp(argv[1], "read") == 0) {
        measure_reading();
    } else if (argc == 4 && strcmp(argv[1], "udp") == 0) {
        first_port = (unsigned)strtoul(argv[2], NULL, 10);
        exchange(strtol(argv[3], NULL, 10));
    } else {
        fail("usage: nodes read, or nodes udp PORT ROUNDS");
    }
    return 0;
}
