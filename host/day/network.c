/* The network: it answers each fetch with a made document that names the URL. A real one has a client for HTTP here,
 * and many fetches under way at once; the kernel does not mind in which order the documents come. */
#define _POSIX_C_SOURCE 200809L
#include "wire.h"
#include <stdio.h>
#include <stdlib.h>
#include <string.h>

/* A fetch is the id of the tab that asks, then the URL; the document bears that id back. */
static void fetch(const struct message *message) {
    uint8_t document[STEWLATTICE_PAYLOAD_MOST];
    memcpy(document, message->payload, 4);
    int len = snprintf((char *)document + 4, sizeof document - 4, "the page of %.*s", (int)message->size - 4,
                       (const char *)message->payload + 4);
    if (!wire_send(CHILD_CHANNEL, 0, STEWLATTICE_FROM_NETWORK_DOCUMENT, document, 4 + (size_t)len))
        exit(EXIT_FAILURE);
}

int main(void) {
    struct message message;
    while (wire_receive(CHILD_CHANNEL, 0, &message) == WIRE_MESSAGE)
        if (message.tag == STEWLATTICE_TO_NETWORK_FETCH)
            fetch(&message);
    return EXIT_SUCCESS;
}
