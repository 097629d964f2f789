/* In the place of netatalk's header of this name: DDP sockets as ddp.c has them, and not as a kernel does. */
#ifndef PEER_NETDDP_H
#define PEER_NETDDP_H

#include <netatalk/at.h>
#include <sys/socket.h>
#include <sys/types.h>

int netddp_open(struct sockaddr_at *own, struct sockaddr_at *bridge);
int netddp_close(int file);
ssize_t netddp_sendto(int file, const void *data, size_t length, int flags, const struct sockaddr *to, socklen_t size);
ssize_t netddp_recvfrom(int file, void *data, size_t room, int flags, struct sockaddr *from, socklen_t *size);

#endif
