/* The cable beneath netatalk's programs: datagrams of one network on LocalTalk over UDP, at the interface
   PEER_INTERFACE (127.0.0.1). As in netatalk, the data of a datagram begin with its type. */
#ifndef PEER_WIRE_H
#define PEER_WIRE_H

#include <netatalk/at.h>
#include <stdint.h>
#include <sys/socket.h>
#include <sys/types.h>

enum { MAX_FILES = 1024, FIRST_DYNAMIC = 128 };

/* The number in an environment variable, or another where it is not set. */
int setting(const char *name, int otherwise);

/* A DDP socket for a program that asks for any. */
uint8_t free_socket(void);

/* Lets a new file of UDP hear what goes to one DDP socket of a node, or of every node. The answer is 0, or -1. */
int hear_socket(int file, uint8_t node, uint8_t ddp_socket);

/* Lets a new file of UDP hear the questions whether this number is taken (ENQ). The answer is 0, or -1. */
int hear_questions(int file, uint8_t node);

/* Answers the question that waits, unless this program asked it. */
void deny_number(int file, uint8_t node);

ssize_t send_short(int file, const struct sockaddr_at *from, const struct sockaddr_at *to, const void *data,
                   size_t length);

/* `from` may be NULL. What came without a network has this one. */
ssize_t receive_any(int file, uint16_t network, void *data, size_t room, struct sockaddr_at *from);

#endif
