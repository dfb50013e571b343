/* A cookie process: it keeps the cookies of one owner under one suffix. Which tabs reach it is the kernel's business;
 * it answers whoever is let through. The store is in memory and goes with the process; a real one opens its file
 * here, under a name made of owner and suffix, both of which the start action tells the host. */
#define _POSIX_C_SOURCE 200809L
#include "wire.h"
#include <stdlib.h>
#include <string.h>

/* A domain, and the cookie kept for it. The lengths are those of document 01's frames, so a result always fits. */
struct entry {
    struct entry *next;
    size_t domain_len, cookie_len;
    uint8_t domain[STEWLATTICE_NAME_MOST];
    uint8_t cookie[STEWLATTICE_PAYLOAD_MOST];
};

static struct entry *store;

/* The entry of a domain, or NULL. Domains arrive folded, so equal bytes are equal domains. */
static struct entry *find(const uint8_t *domain, size_t len) {
    struct entry *entry = store;
    while (entry != NULL && (entry->domain_len != len || memcmp(entry->domain, domain, len) != 0))
        entry = entry->next;
    return entry;
}

static void set(const struct message *message) {
    size_t len = message->payload[0];
    const uint8_t *domain = message->payload + 1;
    struct entry *entry = find(domain, len);
    if (entry == NULL) {
        entry = calloc(1, sizeof *entry);
        if (entry == NULL)
            exit(EXIT_FAILURE);
        entry->domain_len = len;
        memcpy(entry->domain, domain, len);
        entry->next = store;
        store = entry;
    }
    entry->cookie_len = message->size - 1 - len;
    memcpy(entry->cookie, domain + len, entry->cookie_len);
}

/* Every get has one result, an empty cookie if none is kept: the tab waits for it. */
static void get(const struct message *message) {
    uint8_t result[STEWLATTICE_PAYLOAD_MOST];
    const struct entry *entry = find(message->payload + 4, message->size - 4);
    size_t len = entry == NULL ? 0 : entry->cookie_len;
    memcpy(result, message->payload, 4);
    if (len > 0)
        memcpy(result + 4, entry->cookie, len);
    if (!wire_send(CHILD_CHANNEL, 0, STEWLATTICE_FROM_PROCESS_RESULT, result, 4 + len))
        exit(EXIT_FAILURE);
}

int main(void) {
    struct message message;
    while (wire_receive(CHILD_CHANNEL, 0, &message) == WIRE_MESSAGE)
        if (message.tag == STEWLATTICE_TO_PROCESS_SET)
            set(&message);
        else if (message.tag == STEWLATTICE_TO_PROCESS_GET)
            get(&message);
    while (store != NULL) {
        struct entry *next = store->next;
        free(store);
        store = next;
    }
    return EXIT_SUCCESS;
}
