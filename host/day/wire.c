/* Messages on a channel; see wire.h. */
#define _POSIX_C_SOURCE 200809L
#include "wire.h"
#include <errno.h>
#include <string.h>
#include <sys/socket.h>

enum { WIRE_HEAD = 5, WIRE_MOST = WIRE_HEAD + STEWLATTICE_PAYLOAD_MOST };

bool wire_send(int channel, int flags, uint8_t tag, const void *payload, size_t size) {
    uint8_t packet[WIRE_MOST];
    if (size > STEWLATTICE_PAYLOAD_MOST) {
        errno = EMSGSIZE;
        return false;
    }
    packet[0] = tag;
    stewlattice_put(packet + 1, 4, (uint32_t)size);
    if (size > 0)
        memcpy(packet + WIRE_HEAD, payload, size);
    ssize_t sent;
    do
        sent = send(channel, packet, WIRE_HEAD + size, flags | MSG_NOSIGNAL);
    while (sent < 0 && errno == EINTR);
    return sent >= 0;
}

enum wire wire_receive(int channel, int flags, struct message *to) {
    uint8_t packet[WIRE_MOST + 1]; /* a byte more than any message has, so that one too long shows */
    ssize_t got;
    do
        got = recv(channel, packet, sizeof packet, flags);
    while (got < 0 && errno == EINTR);
    if (got <= 0)
        return WIRE_END;
    if (got < WIRE_HEAD || got > WIRE_MOST)
        return WIRE_NONSENSE;
    to->tag = packet[0];
    to->size = stewlattice_get(packet + 1, 4);
    if (to->size != (uint32_t)got - WIRE_HEAD)
        return WIRE_NONSENSE;
    memcpy(to->payload, packet + WIRE_HEAD, to->size);
    return WIRE_MESSAGE;
}
