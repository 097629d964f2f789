/* Frames of LocalTalk, and datagrams in them. A frame is the number of the node that it goes to, that of its source, a
   type, and what it carries. On a cable without a router the network is 0 in the tuples of names. */
#ifndef LOCALTALK_H
#define LOCALTALK_H

#include <string.h>

#include "at_node.h"

/* The types of a frame: a datagram with the short header or the long one, the question for a number, and its denial. */
enum { SHORT = 0x01, LONG = 0x02, ENQ = 0x81, ACK = 0x82 };
enum { FRAME = 3, SHORT_HEADER = 5, LONG_HEADER = 13, NAMES = 2, MAX_FRAME = 700 };

static unsigned two_bytes(const uint8_t *bytes) {
    return (unsigned)bytes[0] << 8 | bytes[1];
}

static void put_two(uint8_t *bytes, unsigned value) {
    bytes[0] = (uint8_t)(value >> 8);
    bytes[1] = (uint8_t)value;
}

/* Writes a network anew in the tuples of names: each is an address, an enumerator and three texts. */
static void rename_network(uint8_t *names, size_t length, unsigned old, unsigned new_) {
    size_t at = 2;
    if (length < at) return;
    for (int left = names[0] & 15; left > 0 && at + 5 <= length; left--) {
        if (two_bytes(names + at) == old) put_two(names + at, new_);
        at += 5;
        for (int i = 0; i < 3 && at < length; i++) at += 1u + names[at];
    }
}

/* A datagram of this network with the short header, which has no networks and no sum. It lies within `bytes`, which
   change, and *length becomes its own. */
static uint8_t *short_of(uint8_t *bytes, size_t *length, unsigned network) {
    uint8_t *header = bytes + LONG_HEADER - SHORT_HEADER;
    if (bytes[12] == NAMES) rename_network(bytes + LONG_HEADER, *length - LONG_HEADER, network, 0);
    *length -= LONG_HEADER - SHORT_HEADER;
    put_two(header, (unsigned)*length);
    return header;
}

/* The datagram of a frame of type SHORT, with the long header, on this network and without a sum. The answer is its
   length, or 0 if the frame has none. `bytes` has room for AT_NODE_MAX_DATAGRAM. */
static size_t long_of(const uint8_t *frame, size_t length, uint8_t *bytes, unsigned network) {
    const uint8_t *header = frame + FRAME;
    if (length < FRAME + SHORT_HEADER) return 0;
    size_t stated = two_bytes(header) & 0x3FF, whole = stated - SHORT_HEADER + LONG_HEADER;
    if (stated < SHORT_HEADER || stated > length - FRAME || whole > AT_NODE_MAX_DATAGRAM) return 0;
    memset(bytes, 0, LONG_HEADER);
    put_two(bytes, (unsigned)whole);
    put_two(bytes + 4, network);
    put_two(bytes + 6, network);
    bytes[8] = frame[0];
    bytes[9] = frame[1];
    memcpy(bytes + 10, header + 2, stated - 2);
    if (bytes[12] == NAMES) rename_network(bytes + LONG_HEADER, whole - LONG_HEADER, 0, network);
    return whole;
}

#endif
