/* LocalTalk over UDP, as wire.h says. A payload is four bytes that tell its sender, and a frame. */
#define _GNU_SOURCE

#include "wire.h"

#include <arpa/inet.h>
#include <errno.h>
#include <linux/filter.h>
#include <netinet/in.h>
#include <stdbool.h>
#include <stdlib.h>
#include <string.h>
#include <unistd.h>

enum { SENDER = 4, FRAME = 3, SHORT_HEADER = 5, LONG_HEADER = 13, MAX_DATA = 586, PORT = 1954, DYNAMIC = 126 };
enum { SHORT = 0x01, LONG = 0x02, ENQ = 0x81, ACK = 0x82, EVERYONE = 255 };
/* Where a filter of the kernel finds the fields: it counts from the header of UDP. */
enum { TO = 8 + SENDER, KIND = TO + 2, SHORT_SOCKET = TO + FRAME + 2, LONG_SOCKET = TO + FRAME + 10 };

int setting(const char *name, int otherwise) {
    const char *value = getenv(name);
    return value != NULL ? atoi(value) : otherwise;
}

/* Each program has other sockets than the one before, since whoever answered that one may still keep its answers. */
uint8_t free_socket(void) {
    static unsigned opened;
    return (uint8_t)(FIRST_DYNAMIC + ((unsigned)getpid() * 4 + opened++) % DYNAMIC);
}

static struct in_addr interface(void) {
    const char *value = getenv("PEER_INTERFACE");
    struct in_addr address;
    inet_aton(value != NULL ? value : "127.0.0.1", &address);
    return address;
}

static struct sockaddr_in group(void) {
    struct sockaddr_in address = {.sin_family = AF_INET, .sin_port = htons(PORT)};
    inet_aton("239.192.76.84", &address.sin_addr);
    return address;
}

static uint32_t sender(void) {
    return htonl((uint32_t)getpid());
}

/* What a filter lets through makes the file ready, so all else has to be dropped before. */
static int join(int file, struct sock_fprog filter) {
    int on = 1;
    struct sockaddr_in any = {.sin_family = AF_INET, .sin_port = htons(PORT)};
    struct ip_mreq member = {group().sin_addr, interface()};
    if (setsockopt(file, SOL_SOCKET, SO_ATTACH_FILTER, &filter, sizeof filter) != 0) return -1;
    setsockopt(file, SOL_SOCKET, SO_REUSEADDR, &on, sizeof on);
    setsockopt(file, SOL_SOCKET, SO_REUSEPORT, &on, sizeof on);
    setsockopt(file, IPPROTO_IP, IP_MULTICAST_IF, &member.imr_interface, sizeof member.imr_interface);
    if (bind(file, (struct sockaddr *)&any, sizeof any) != 0) return -1;
    return setsockopt(file, IPPROTO_IP, IP_ADD_MEMBERSHIP, &member, sizeof member);
}

int hear_socket(int file, uint8_t node, uint8_t ddp_socket) {
    struct sock_filter code[] = {
        BPF_STMT(BPF_LD | BPF_B | BPF_ABS, TO),
        BPF_JUMP(BPF_JMP | BPF_JEQ | BPF_K, node, 1, 0),
        BPF_JUMP(BPF_JMP | BPF_JEQ | BPF_K, EVERYONE, 0, 7),
        BPF_STMT(BPF_LD | BPF_B | BPF_ABS, KIND),
        BPF_JUMP(BPF_JMP | BPF_JEQ | BPF_K, SHORT, 0, 2),
        BPF_STMT(BPF_LD | BPF_B | BPF_ABS, SHORT_SOCKET),
        BPF_JUMP(BPF_JMP | BPF_JEQ | BPF_K, ddp_socket, 4, 3),
        BPF_JUMP(BPF_JMP | BPF_JEQ | BPF_K, LONG, 0, 2),
        BPF_STMT(BPF_LD | BPF_B | BPF_ABS, LONG_SOCKET),
        BPF_JUMP(BPF_JMP | BPF_JEQ | BPF_K, ddp_socket, 1, 0),
        BPF_STMT(BPF_RET | BPF_K, 0),
        BPF_STMT(BPF_RET | BPF_K, 0xFFFF),
    };
    return join(file, (struct sock_fprog){sizeof code / sizeof *code, code});
}

int hear_questions(int file, uint8_t node) {
    struct sock_filter code[] = {
        BPF_STMT(BPF_LD | BPF_B | BPF_ABS, TO),   BPF_JUMP(BPF_JMP | BPF_JEQ | BPF_K, node, 0, 3),
        BPF_STMT(BPF_LD | BPF_B | BPF_ABS, KIND), BPF_JUMP(BPF_JMP | BPF_JEQ | BPF_K, ENQ, 0, 1),
        BPF_STMT(BPF_RET | BPF_K, 0xFFFF),        BPF_STMT(BPF_RET | BPF_K, 0),
    };
    return join(file, (struct sock_fprog){sizeof code / sizeof *code, code});
}

static bool send_frame(int file, uint8_t to, uint8_t from, uint8_t kind, const uint8_t *data, size_t length) {
    uint8_t payload[SENDER + FRAME + SHORT_HEADER + MAX_DATA];
    struct sockaddr_in everyone = group();
    uint32_t own = sender();
    memcpy(payload, &own, SENDER);
    payload[SENDER] = to;
    payload[SENDER + 1] = from;
    payload[SENDER + 2] = kind;
    if (length > 0) memcpy(payload + SENDER + FRAME, data, length);
    return sendto(file, payload, SENDER + FRAME + length, 0, (struct sockaddr *)&everyone, sizeof everyone) >= 0;
}

void deny_number(int file, uint8_t node) {
    uint32_t own = sender(), from = own;
    if (recv(file, &from, sizeof from, 0) >= 0 && from != own) send_frame(file, node, node, ACK, NULL, 0);
}

ssize_t send_short(int file, const struct sockaddr_at *from, const struct sockaddr_at *to, const void *data,
                   size_t length) {
    uint8_t datagram[SHORT_HEADER + MAX_DATA];
    size_t whole = length - 1 + SHORT_HEADER;
    if (length < 1 || length - 1 > MAX_DATA) {
        errno = EMSGSIZE;
        return -1;
    }
    datagram[0] = (uint8_t)(whole >> 8);
    datagram[1] = (uint8_t)whole;
    datagram[2] = to->sat_port;
    datagram[3] = from->sat_port;
    memcpy(datagram + SHORT_HEADER - 1, data, length);
    bool is_sent = send_frame(file, to->sat_addr.s_node, from->sat_addr.s_node, SHORT, datagram, whole);
    return is_sent ? (ssize_t)length : -1;
}

/* Who sent the datagram of a frame. */
static struct sockaddr_at source_of(const uint8_t *frame, uint16_t network) {
    const uint8_t *header = frame + FRAME;
    struct sockaddr_at from = {.sat_family = AF_APPLETALK};
    if (frame[2] == SHORT) {
        from.sat_addr.s_net = htons(network);
        from.sat_addr.s_node = frame[1];
        from.sat_port = header[3];
    } else {
        memcpy(&from.sat_addr.s_net, header + 6, sizeof from.sat_addr.s_net);
        from.sat_addr.s_node = header[9];
        from.sat_port = header[11];
    }
    return from;
}

ssize_t receive_any(int file, uint16_t network, void *data, size_t room, struct sockaddr_at *from) {
    uint8_t payload[SENDER + FRAME + LONG_HEADER + MAX_DATA];
    ssize_t came = recv(file, payload, sizeof payload, 0);
    if (came < SENDER + FRAME + SHORT_HEADER) return -1;
    uint8_t *frame = payload + SENDER, *header = frame + FRAME;
    size_t before = frame[2] == SHORT ? SHORT_HEADER - 1 : LONG_HEADER - 1;
    size_t stated = (size_t)(header[0] & 3) << 8 | header[1];
    if (stated <= before || stated - before > room || stated > (size_t)came - SENDER - FRAME) {
        errno = EBADMSG;
        return -1;
    }
    if (from != NULL) *from = source_of(frame, network);
    memcpy(data, header + before, stated - before);
    return (ssize_t)(stated - before);
}
