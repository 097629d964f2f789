/* An AppleTalk node in a C program. docs/C.md tells how to build and link it. */
#ifndef AT_NODE_H
#define AT_NODE_H

#include <stddef.h>
#include <stdint.h>

#ifdef __cplusplus
extern "C" {
#endif

/* A node, or none. It begins as AT_NODE_NONE, and only these functions change it: it may be moved to another place, and
   is never copied. What the node has is freed by at_node_close alone. Each node stays on one thread, and one call at a
   time uses it. Different nodes share nothing. */
typedef struct at_node {
    void *pointer;
} at_node;

/* The first value of each at_node, as in: at_node node = AT_NODE_NONE; */
#define AT_NODE_NONE {0}

/* The same where a value is assigned, as in: nodes[i] = AT_NODE_CLOSED; A node that was there is not freed by that. */
#ifdef __cplusplus
#define AT_NODE_CLOSED (at_node())
#else
#define AT_NODE_CLOSED ((at_node)AT_NODE_NONE)
#endif

/* What came of a call. If it is not AT_NODE_OK, the node and what it has to hand out are as they were. */
enum {
    AT_NODE_OK = 0,
    AT_NODE_NO_MEMORY = 1,    /* malloc or realloc gave none; the call can be made again */
    AT_NODE_NO_SETUP = 2,     /* the text is no schedule, so it sets up no cable */
    AT_NODE_NO_SUCH_NODE = 3, /* the cable has no node of this number */
    AT_NODE_NO_EVENT = 4,     /* the line says no call and no timer */
    AT_NODE_NOT_OPEN = 5,     /* the handle has no node */
    AT_NODE_MISSING = 6,      /* there is nothing to hand out */
    AT_NODE_NO_ROOM = 7       /* it is longer than the room, as *length tells; it can be asked for again */
};

/* The most bytes of a datagram: so much room is enough for each. */
enum { AT_NODE_MAX_DATAGRAM = 599 };

/* The most bytes of a report: "4294967295 read", " end" for each of 65,535 items, and a line feed. Where the ends of
   streams have rooms of 24,833 items or fewer, a list of 1,024 zones is the longest, with 99,350 bytes. */
enum { AT_NODE_MAX_REPORT = 262156 };

/* The most bytes of the list of timers: 32 lines of retries with up to 18 bytes, 64 of releases at socket 6 with 36 and
   64 at socket 129 with 38, 8 of lookups with 17, 16 of resends with 19, and 16 of probes with 18. */
enum { AT_NODE_MAX_TIMERS = 6040 };

/* More than the most bytes that are shown of a datagram. */
enum { AT_NODE_MAX_SHOWN = 4096 };

/* The number of everyone on the cable, to whom a datagram can go. */
enum { AT_NODE_EVERYONE = 255 };

/* Each pointer to bytes points to as many as the size_t after it says, all of them with a value (char room[599] = {0}).
   No pointer is null, not even to no bytes, and no two of a call point into the same memory. The caller owns all of
   this memory. Nothing of it is kept after a call. Texts are bytes of any value, and end where their length says. */

/* The number of this interface, 2. It rises with each change of what is promised here. The version of the release is
   another one. */
uint32_t at_node_version(void);

/* Opens a node. `setup` has the first lines of a schedule, as "net 10\nnode 5 zone Lab\n..", and `number`, 1 to 254,
   says which of its nodes this is. A node that the handle has is closed once the new one is open. If the setup was read
   and lacks the node, the status is AT_NODE_NO_SUCH_NODE, and never AT_NODE_NO_MEMORY.
   AT_NODE_OK, AT_NODE_NO_SETUP, AT_NODE_NO_SUCH_NODE or AT_NODE_NO_MEMORY. */
uint32_t at_node_open(at_node *node, const uint8_t *setup, size_t length, uint8_t number);

/* Frees all that the node has. The handle has none then, and may be opened again, or forgotten. */
void at_node_close(at_node *node);

/* Plays "call CALL" or "timer TIMER", as a schedule says them of a node, but without its number and without a line
   feed. The requester in "call answer" and "timer release" is NODE or NET.NODE: NODE is on the node's own network. What
   the node reports is handed out by at_node_report, and what it sends by at_node_next_datagram. Only a line whose first
   word is "call", and a timer that is not refused, can find no memory.
   AT_NODE_OK, AT_NODE_NO_EVENT, AT_NODE_NOT_OPEN or AT_NODE_NO_MEMORY. */
uint32_t at_node_play(at_node *node, const uint8_t *line, size_t length);

/* Takes the bytes of a datagram that came on the cable, whatever they are. Afterwards as after at_node_play. What is
   ignored or refused needs no memory.
   AT_NODE_OK, AT_NODE_NOT_OPEN or AT_NODE_NO_MEMORY. */
uint32_t at_node_receive(at_node *node, const uint8_t *bytes, size_t length);

/* Hands out the datagram that the node sent first of those that it still has: `*length` bytes in `bytes`, for the node
   of number `*to` or for AT_NODE_EVERYONE. Each is handed out once, in the order of sending.
   AT_NODE_OK, AT_NODE_MISSING, AT_NODE_NO_ROOM or AT_NODE_NOT_OPEN. */
uint32_t at_node_next_datagram(at_node *node, uint8_t *to, uint8_t *bytes, size_t room, size_t *length);

/* Hands out the line of the last call, timer or datagram, as "7 begun 0\n" if `event` is 7: `*length` bytes in `text`,
   at most AT_NODE_MAX_REPORT. It can be asked for as often as wanted, up to the next call, timer or datagram. A
   requester of another network is written as NET.NODE.
   AT_NODE_OK, AT_NODE_MISSING, AT_NODE_NO_ROOM, AT_NODE_NOT_OPEN or AT_NODE_NO_MEMORY. */
uint32_t at_node_report(at_node *node, uint32_t event, uint8_t *text, size_t room, size_t *length);

/* Hands out why the last call, timer or datagram was refused, if it was: the number of its report in `*number`, and the
   sentence, `*length` bytes in `text`, without a line feed. `*number` is written also if the sentence is not.
   AT_NODE_OK, AT_NODE_MISSING, AT_NODE_NO_ROOM, AT_NODE_NOT_OPEN or AT_NODE_NO_MEMORY. */
uint32_t at_node_refusal(at_node *node, uint8_t *number, uint8_t *text, size_t room, size_t *length);

/* Hands out the timers that would do something now, a line for each, as "timer retry 7\n": `*length` bytes in `text`,
   at most AT_NODE_MAX_TIMERS, and 0 if there is none. Each line without its line feed is one for at_node_play, and no
   line comes twice. A timer that is not among them does nothing. Only a list with lines can find no memory.
   AT_NODE_OK, AT_NODE_NO_ROOM, AT_NODE_NOT_OPEN or AT_NODE_NO_MEMORY. */
uint32_t at_node_timers(at_node *node, uint8_t *text, size_t room, size_t *length);

/* Hands out what some bytes are, as of a datagram on the cable, in lines as `atnode show` prints them: `*text_length`
   bytes in `text`, at most AT_NODE_MAX_SHOWN. Bytes that are refused have lines too. It needs no node.
   AT_NODE_OK, AT_NODE_NO_ROOM or AT_NODE_NO_MEMORY. */
uint32_t at_node_show(const uint8_t *bytes, size_t length, uint8_t *text, size_t room, size_t *text_length);

/* A service, which answers requests that come to socket 129, in a few lines. at_node_receive took a datagram:

       at_node_report(&node, 0, text, sizeof text - 1, &length);
       if (sscanf((char *)text, "0 asked %15s %u %u", who, &socket, &tid) == 3) {
           length = sprintf(line, "call answer %s %u %u 00000000:%s", who, socket, tid, answer_in_hex);
           at_node_play(&node, (uint8_t *)line, length);
       }
       at_node_timers(&node, timers, sizeof timers, &length);

   The report is "0 asked WHO SOCKET NUMBER USER DATA\n", with WHO as NODE or NET.NODE. An answer can also be given
   later. After each call, timer and datagram the program reads the list of timers anew. It arms a timer that is new in
   the list, and one that fired and is still listed. It disarms one that is no longer listed. So the record of each
   request that was answered goes in the end, and the service does not fill up. A request without an answer stays. */

#ifdef __cplusplus
}
#endif

#endif
