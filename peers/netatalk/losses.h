/* What a client of a printer is made to lose of what it sends, so that tests see what becomes of its job. */
#ifndef PEER_LOSSES_H
#define PEER_LOSSES_H

#include <stdbool.h>
#include <stddef.h>
#include <stdint.h>

/* Whether a datagram is lost, by the environment variable PEER_LOSES. With "tickles" each tickle of the Printer Access
   Protocol is. With "answers:SECONDS" each answer of the first transaction that asks for data of the job is, for so
   long. The data begin with the type of the datagram. */
bool is_lost(const uint8_t *data, size_t length);

#endif
