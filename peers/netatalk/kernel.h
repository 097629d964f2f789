/* Gives the calls of netatalk's atalkd that a kernel with AppleTalk answers other names: those of kernel.c. It is
   included before each of atalkd's sources, after all that declares these calls. */
#ifndef PEER_KERNEL_H
#define PEER_KERNEL_H

#include <sys/ioctl.h>
#include <sys/select.h>
#include <sys/socket.h>
#include <sys/time.h>
#include <sys/types.h>

int kernel_socket(int domain, int type, int protocol);
int kernel_bind(int file, const struct sockaddr *address, socklen_t size);
int kernel_ioctl(int file, unsigned long command, void *argument);
int kernel_select(int count, fd_set *reads, fd_set *writes, fd_set *errors, struct timeval *patience);
ssize_t kernel_sendto(int file, const void *data, size_t length, int flags, const struct sockaddr *to, socklen_t size);
ssize_t kernel_recvfrom(int file, void *data, size_t room, int flags, struct sockaddr *from, socklen_t *size);

#ifndef PEER_IS_KERNEL
#define socket kernel_socket
#define bind kernel_bind
#define ioctl kernel_ioctl
#define select kernel_select
#define sendto kernel_sendto
#define recvfrom kernel_recvfrom
#endif

#endif
