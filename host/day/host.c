/* Events: from a seat or a child to the kernel; see host.h. */
#include "host.h"
#include <inttypes.h>
#include <stdio.h>
#include <string.h>

const char *host_party(uint8_t party) {
    static const char *const words[] = {"nobody", "seat", "tab", "process", "network", "host"};
    return words[party <= STEWLATTICE_HOST ? party : 0];
}

static const char *reason(enum stewlattice_numbers number) {
    static const char *const words[] = {"done",
                                        "the output room is too small",
                                        "the table is unsound",
                                        "that is no message of its kind",
                                        "there is no such sender",
                                        "there is no such key",
                                        "the book is unsound",
                                        "that is no suffix to open",
                                        "ten tabs are open",
                                        "no more tabs can be opened",
                                        "no such tab waits for that"};
    return words[number];
}

/* A refused result or document names the tab that it was for. */
static void report(uint8_t party, uint32_t id, enum stewlattice_numbers number, const uint8_t *payload) {
    printf("  refused %u: %s %" PRIu32 ", %s", (unsigned)number, host_party(party), id, reason(number));
    if (number == STEWLATTICE_NOT_AWAITED)
        printf(" (tab %" PRIu32 ")", stewlattice_get(payload, 4));
    puts("");
}

bool host_begin(struct host *host, const uint8_t *book, size_t book_len, const char *directory, int patience) {
    host->book = book;
    host->book_len = book_len;
    host->children.directory = directory;
    host->children.patience = patience;
    uint64_t answer = stewlattice_start(host->table, sizeof host->table, book, book_len);
    if (stewlattice_number(answer) != STEWLATTICE_DONE) {
        report(STEWLATTICE_HOST, 0, stewlattice_number(answer), NULL);
        return false;
    }
    program_prepare();
    children_start(&host->children, STEWLATTICE_NETWORK, 0, "network");
    return true;
}

enum stewlattice_numbers host_deliver(struct host *host, uint8_t party, uint32_t id, uint8_t tag, const void *payload,
                                      size_t size) {
    uint8_t event[STEWLATTICE_HEAD_SIZE + STEWLATTICE_PAYLOAD_MOST];
    if (size > STEWLATTICE_PAYLOAD_MOST) {
        report(party, id, STEWLATTICE_BAD_FRAME, payload);
        return STEWLATTICE_BAD_FRAME;
    }
    stewlattice_put_head(event, (struct stewlattice_head){party, id, tag, (uint32_t)size});
    memcpy(event + STEWLATTICE_HEAD_SIZE, payload, size);
    uint64_t answer = stewlattice_step(host->table, sizeof host->table, host->book, host->book_len, event,
                                       STEWLATTICE_HEAD_SIZE + size, host->room, sizeof host->room);
    if (stewlattice_number(answer) != STEWLATTICE_DONE)
        report(party, id, stewlattice_number(answer), payload);
    host->sender = id;
    const uint8_t *at = host->room;
    for (unsigned i = 0; i < stewlattice_actions(answer); i++) {
        struct stewlattice_head head = stewlattice_get_head(at);
        host_perform(host, head, at + STEWLATTICE_HEAD_SIZE);
        at += STEWLATTICE_HEAD_SIZE + head.size;
    }
    return stewlattice_number(answer);
}

enum stewlattice_numbers host_open(struct host *host, uint32_t seat, const char *suffix) {
    return host_deliver(host, STEWLATTICE_SEAT, seat, STEWLATTICE_FROM_SEAT_OPEN, suffix, strlen(suffix));
}

enum stewlattice_numbers host_press(struct host *host, uint32_t seat, uint8_t key) {
    return host_deliver(host, STEWLATTICE_SEAT, seat, STEWLATTICE_FROM_SEAT_KEY, &key, 1);
}

void host_turn(struct host *host, int64_t deadline) {
    struct message message;
    struct child *child = children_lost(&host->children);
    if (child != NULL) {
        host_clear(host, child);
        return;
    }
    child = children_receive(&host->children, deadline, &message);
    if (child != NULL && host_deliver(host, child->party, child->id, message.tag, message.payload, message.size) ==
                             STEWLATTICE_BAD_FRAME)
        child_lose(child, "it sent a message that does not fit its tag");
}

bool host_end(struct host *host) {
    while (!host->is_over && children_lost(&host->children) != NULL)
        host_turn(host, 0);
    return children_end(&host->children);
}
