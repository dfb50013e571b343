/* A tab that has been broken into. Where it goes tells which lie it sends; then it stays until the host ends it. At
 * deaf.com it says nothing, and listens no more. */
#define _POSIX_C_SOURCE 200809L
#include "wire.h"
#include <stdlib.h>
#include <string.h>
#include <sys/socket.h>
#include <unistd.h>

enum { PACKET_MOST = 2 * STEWLATTICE_PAYLOAD_MOST };

/* A whole frame of document 01, as if the sender were process 1: a cookie for the tab of seat 1. */
static size_t as_process(uint8_t *packet) {
    stewlattice_put_head(packet,
                         (struct stewlattice_head){STEWLATTICE_PROCESS, 1, STEWLATTICE_FROM_PROCESS_RESULT, 10});
    stewlattice_put(packet + 10, 4, stewlattice_tab_id(1, 1));
    memcpy(packet + 14, "forged", 6);
    return 20;
}

/* A head with any tag and size, in a packet of any length. */
static size_t message(uint8_t *packet, uint8_t tag, uint32_t size, size_t length) {
    packet[0] = tag;
    stewlattice_put(packet + 1, 4, size);
    return length;
}

/* A display of a memory that the tab does not have, or of a rectangle that its page does not have. */
static size_t display(uint8_t *packet, uint32_t memory, uint32_t width) {
    stewlattice_put(packet + 5, 4, memory);
    stewlattice_put(packet + 13, 2, width);
    stewlattice_put(packet + 15, 2, PAGE_HEIGHT);
    return message(packet, STEWLATTICE_FROM_TAB_DISPLAY, 12, 17);
}

/* Makes the lie for a suffix, in a packet of zeros; gives its length. */
static size_t lie(const char *suffix, uint8_t *packet) {
    if (strcmp(suffix, "sender.com") == 0)
        return as_process(packet);
    if (strcmp(suffix, "longer.com") == 0)
        return message(packet, STEWLATTICE_FROM_TAB_URL, 101, 105);
    if (strcmp(suffix, "shorter.com") == 0)
        return message(packet, STEWLATTICE_FROM_TAB_URL, 99, 105);
    if (strcmp(suffix, "huge.com") == 0)
        return message(packet, STEWLATTICE_FROM_TAB_URL, PACKET_MOST - 5, PACKET_MOST);
    if (strcmp(suffix, "memory.com") == 0)
        return display(packet, PAGE_MEMORY + 1, PAGE_WIDTH);
    if (strcmp(suffix, "window.com") == 0)
        return display(packet, PAGE_MEMORY, PAGE_WIDTH + 1);
    if (strcmp(suffix, "tag.com") == 0)
        return message(packet, 9, 0, 5); /* well formed, but no tab has such a tag */
    return 1;
}

int main(void) {
    static uint8_t packet[PACKET_MOST];
    char suffix[STEWLATTICE_SUFFIX_MOST + 1] = "";
    struct message got;
    while (wire_receive(CHILD_CHANNEL, 0, &got) == WIRE_MESSAGE)
        if (got.tag == STEWLATTICE_TO_TAB_GO) {
            memcpy(suffix, got.payload, got.size);
            if (strcmp(suffix, "deaf.com") == 0)
                pause();
            send(CHILD_CHANNEL, packet, lie(suffix, packet), MSG_NOSIGNAL);
        }
    return EXIT_SUCCESS;
}
