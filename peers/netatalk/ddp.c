/* What a kernel has under netatalk's clients: sockets of DDP, here on LocalTalk over UDP. netatalk's sources stay as
   they are, and include the header atalk/netddp.h that lies beside this file.

   All sockets of a program are of node PEER_NODE (9) of network PEER_NET (10). netatalk's programs ask a daemon of
   their own node for zones, names and routes. Such a datagram goes to the router, PEER_ROUTER (1). */
#include <arpa/inet.h>
#include <errno.h>
#include <stdio.h>
#include <string.h>
#include <unistd.h>

#include <atalk/netddp.h>

#include "losses.h"
#include "wire.h"

/* The DDP socket of each open file. */
static uint8_t socket_of[MAX_FILES];

static uint16_t own_network(void) {
    return (uint16_t)setting("PEER_NET", 10);
}

static uint8_t own_node(void) {
    return (uint8_t)setting("PEER_NODE", 9);
}

static struct sockaddr_at own_address(uint8_t ddp_socket) {
    struct sockaddr_at own = {.sat_family = AF_APPLETALK, .sat_port = ddp_socket};
    own.sat_addr.s_net = htons(own_network());
    own.sat_addr.s_node = own_node();
    return own;
}

int netddp_open(struct sockaddr_at *own, struct sockaddr_at *bridge) {
    uint8_t ddp_socket = own != NULL && own->sat_port != 0 ? own->sat_port : free_socket();
    int file = socket(AF_INET, SOCK_DGRAM, 0);
    (void)bridge;
    if (file < 0 || file >= MAX_FILES || hear_socket(file, own_node(), ddp_socket) != 0) {
        perror("netddp_open");
        return -1;
    }
    socket_of[file] = ddp_socket;
    if (own != NULL) *own = own_address(ddp_socket);
    return file;
}

int netddp_close(int file) {
    return close(file);
}

ssize_t netddp_sendto(int file, const void *data, size_t length, int flags, const struct sockaddr *to, socklen_t size) {
    struct sockaddr_at from = own_address(socket_of[file]), there;
    (void)flags;
    (void)size;
    memcpy(&there, to, sizeof there);
    uint8_t node = there.sat_addr.s_node;
    if ((node == 0 || node == own_node()) && there.sat_port < FIRST_DYNAMIC) {
        there.sat_addr.s_node = (uint8_t)setting("PEER_ROUTER", 1);
    }
    return is_lost(data, length) ? (ssize_t)length : send_short(file, &from, &there, data, length);
}

/* netatalk asks for no address where it wants none. */
ssize_t netddp_recvfrom(int file, void *data, size_t room, int flags, struct sockaddr *from, socklen_t *size) {
    (void)flags;
    if (size != NULL) *size = sizeof(struct sockaddr_at);
    return receive_any(file, own_network(), data, room, (struct sockaddr_at *)from);
}
