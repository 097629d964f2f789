/* Node 5 asks its router, node 1, for the zone list, and the answer comes twice. It prints what `atnode play` prints of
   examples/zone-list.txt, which is the same from a schedule.

   To build it, with KIT the folder of the toolchain, after ./atnode lib:

       gcc -std=c99 -O2 -Iinclude -o zone_list examples/c/zone_list.c crates/at_c/out/libat_c.a KIT/c/liblibc_c.a */
#include <stdio.h>
#include <stdlib.h>
#include <string.h>

#include "at_node.h"

enum { MAX_SENT = 4, MAX_TEXT = 1024 };

static const uint8_t setup[] =
    "net 10\n"
    "node 1 router zone Lab\n"
    "node 5 zone Lab\n"
    "zones Lab Office\n";
static const uint8_t call[] = "call zones";

static uint8_t text[MAX_TEXT], bytes[AT_NODE_MAX_DATAGRAM], to;
static size_t length;
static uint32_t event_count;

/* What was sent on the cable, in order. */
static struct sent {
    size_t length;
    uint8_t bytes[AT_NODE_MAX_DATAGRAM];
} sent[MAX_SENT];
static size_t sent_count;

/* Ends the program if a call of the library failed. */
static void must(uint32_t status) {
    if (status == AT_NODE_OK) return;
    fprintf(stderr, "zone_list: status %u\n", (unsigned)status);
    exit(1);
}

/* Prints a datagram, and keeps it for the node that it is for. */
static void put_on_cable(void) {
    if (sent_count == MAX_SENT) abort();
    sent[sent_count].length = length;
    memcpy(sent[sent_count].bytes, bytes, length);
    printf("sent %zu %u ", sent_count++, to);
    for (size_t i = 0; i < length; i++) printf("%02X", bytes[i]);
    printf("\n");
}

/* Prints what a node reports, and puts all that it sends on the cable. */
static void take(at_node *node) {
    must(at_node_report(node, event_count++, text, sizeof text, &length));
    fwrite(text, 1, length, stdout);
    while (at_node_next_datagram(node, &to, bytes, sizeof bytes, &length) == AT_NODE_OK) put_on_cable();
}

int main(void) {
    at_node router = AT_NODE_NONE, node = AT_NODE_NONE;
    must(at_node_open(&router, setup, sizeof setup - 1, 1));
    must(at_node_open(&node, setup, sizeof setup - 1, 5));
    must(at_node_play(&node, call, sizeof call - 1));
    take(&node); /* "0 begun 0", and datagram 0 to node 1 */
    must(at_node_receive(&router, sent[0].bytes, sent[0].length));
    take(&router); /* "1 served 1", and datagram 1 to node 5 */
    must(at_node_receive(&node, sent[1].bytes, sent[1].length));
    take(&node); /* "2 zones Lab Office" */
    must(at_node_receive(&node, sent[1].bytes, sent[1].length));
    take(&node); /* "3 ignored", as the transaction has ended */
    at_node_close(&node);
    at_node_close(&router);
    return 0;
}
