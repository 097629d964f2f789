/* What a kernel has under netatalk's atalkd: sockets of DDP, and two interfaces, "lo", and "lt0", which is LocalTalk of
   phase 1 over UDP. atalkd's sources stay as they are, and call these functions by kernel.h.

   A node that atalkd gives no number has PEER_NODE (33). It does not ask whether the number is free, but it answers
   whoever asks for it. Routes are not kept, since there is one cable: what goes to another network is refused. */
#define _GNU_SOURCE
#define PEER_IS_KERNEL

#include "kernel.h"

#include <arpa/inet.h>
#include <errno.h>
#include <net/if.h>
#include <stdio.h>
#include <string.h>
#include <unistd.h>

#include "wire.h"

struct attached {
    const char *name;
    short flags;
    struct sockaddr_at address;
};

static struct attached loopback = {"lo", IFF_UP | IFF_RUNNING | IFF_LOOPBACK, {0}};
static struct attached cable = {"lt0", IFF_UP | IFF_RUNNING | IFF_BROADCAST | IFF_MULTICAST, {0}};
/* The address of each open file. */
static struct sockaddr_at bound[MAX_FILES];
/* The file that hears who asks for the number of this node, or -1. */
static int guard = -1;

int kernel_socket(int domain, int type, int protocol) {
    int file = socket(AF_INET, SOCK_DGRAM, 0);
    (void)domain;
    (void)type;
    (void)protocol;
    if (file < MAX_FILES) return file;
    close(file);
    errno = EMFILE;
    return -1;
}

/* Nobody sends to the loopback interface, whose node has no number. */
int kernel_bind(int file, const struct sockaddr *address, socklen_t size) {
    struct sockaddr_at *own = &bound[file];
    (void)size;
    memcpy(own, address, sizeof *own);
    return own->sat_addr.s_node == 0 ? 0 : hear_socket(file, own->sat_addr.s_node, own->sat_port);
}

/* Keeps others from the number of this node, and from no other one any more. */
static int guard_number(uint8_t node) {
    if (guard >= 0) close(guard);
    guard = socket(AF_INET, SOCK_DGRAM, 0);
    return guard >= 0 && guard < FD_SETSIZE ? hear_questions(guard, node) : -1;
}

static int set_address(struct attached *which, const struct sockaddr *address) {
    struct at_addr *own = &which->address.sat_addr;
    memcpy(&which->address, address, sizeof which->address);
    if (which == &cable && own->s_node == 0) own->s_node = (uint8_t)setting("PEER_NODE", 33);
    fprintf(stderr, "kernel: %s is %u.%u\n", which->name, ntohs(own->s_net), own->s_node);
    return which == &cable ? guard_number(own->s_node) : 0;
}

static int refuse(int why) {
    errno = why;
    return -1;
}

static int ask_interface(struct attached *which, unsigned long command, struct ifreq *request) {
    switch (command) {
        case SIOCSIFADDR: return set_address(which, &request->ifr_addr);
        case SIOCGIFADDR: memcpy(&request->ifr_addr, &which->address, sizeof which->address); return 0;
        case SIOCGIFFLAGS: request->ifr_flags = which->flags; return 0;
        case SIOCADDMULTI:
        case SIOCDIFADDR: return 0;
        default: return refuse(EINVAL);
    }
}

int kernel_ioctl(int file, unsigned long command, void *argument) {
    struct ifreq *request = argument;
    (void)file;
    if (command == SIOCADDRT || command == SIOCDELRT) return 0;
    if (strcmp(request->ifr_name, loopback.name) == 0) return ask_interface(&loopback, command, request);
    if (strcmp(request->ifr_name, cable.name) == 0) return ask_interface(&cable, command, request);
    return refuse(ENODEV);
}

/* Waits as select does, and meanwhile keeps others from the number of this node. */
int kernel_select(int count, fd_set *reads, fd_set *writes, fd_set *errors, struct timeval *patience) {
    const fd_set wanted = *reads;
    for (;;) {
        *reads = wanted;
        if (guard >= 0) FD_SET(guard, reads);
        int ready = select(count > guard ? count : guard + 1, reads, writes, errors, patience);
        if (ready <= 0 || guard < 0 || !FD_ISSET(guard, reads)) return ready;
        deny_number(guard, cable.address.sat_addr.s_node);
        FD_CLR(guard, reads);
        if (ready > 1) return ready - 1;
    }
}

ssize_t kernel_sendto(int file, const void *data, size_t length, int flags, const struct sockaddr *to, socklen_t size) {
    struct sockaddr_at there;
    (void)flags;
    (void)size;
    memcpy(&there, to, sizeof there);
    uint16_t network = there.sat_addr.s_net;
    if (network != 0 && network != cable.address.sat_addr.s_net) return refuse(ENETUNREACH);
    return send_short(file, &bound[file], &there, data, length);
}

ssize_t kernel_recvfrom(int file, void *data, size_t room, int flags, struct sockaddr *from, socklen_t *size) {
    (void)flags;
    if (size != NULL) *size = sizeof(struct sockaddr_at);
    return receive_any(file, ntohs(cable.address.sat_addr.s_net), data, room, (struct sockaddr_at *)from);
}
