/* A message between the host and a child: tag (1), size (4), payload of that size. That is a frame of document 01
 * without party and id: whose message it is, the channel tells, and nothing that a child writes.
 *
 * A channel is a socket pair that keeps packets apart, and a message is one packet. It arrives whole or not at all, so
 * a child can neither leave half a message in the host's way nor make two of one. */
#ifndef WIRE_H
#define WIRE_H

#include "stewlattice.h"
#include <stdbool.h>

/* A child finds its channel as standard input, and a tab its page as standard output. */
enum { CHILD_CHANNEL = 0, CHILD_PAGE = 1 };

/* A page is the memory that a tab shares with the host: one row of text. It is the tab's only memory, and the display
 * message names it so. */
enum { PAGE_MEMORY = 1, PAGE_WIDTH = 80, PAGE_HEIGHT = 1 };

struct message {
    uint8_t tag;
    uint32_t size;
    uint8_t payload[STEWLATTICE_PAYLOAD_MOST];
};

enum wire {
    WIRE_MESSAGE,  /* one whole message */
    WIRE_NONSENSE, /* a packet that is none: too short, too long, or its size is not the bytes present */
    WIRE_END       /* nothing will come any more: the other side is gone */
};

/* Sends one message. The flags are those of send(); a broken channel raises no signal. False if it was not taken, with
 * errno set. */
bool wire_send(int channel, int flags, uint8_t tag, const void *payload, size_t size);

/* Receives one message; the flags are those of recv(). */
enum wire wire_receive(int channel, int flags, struct message *to);

#endif
