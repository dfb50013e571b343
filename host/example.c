/* A small host: it replays the worked example of document 01 and prints the desk log, a line for each event and action.
 * The function play stands in for seats, tabs and processes; a real host has channels to them and to the network, and does
 * what it prints here. */
#include "stewlattice.h"
#include <inttypes.h>
#include <stdio.h>
#include <stdlib.h>
#include <string.h>

/* What a host keeps between events. The room is kept to save an allocation at each step; its bytes are not needed. */
struct host {
    uint8_t *table;
    uint8_t *room;
    uint8_t *book;
    size_t book_len;
    unsigned events;
};

static uint8_t *allocate(size_t size) {
    uint8_t *bytes = malloc(size);
    if (bytes == NULL) {
        perror("example");
        exit(EXIT_FAILURE);
    }
    return bytes;
}

/* One action. A real host turns to head.party and head.id here, with a case for each tag. */
static void perform(struct stewlattice_head head, const uint8_t *payload) {
    printf("A %u %" PRIu32 " %u %" PRIu32 " ", head.party, head.id, head.tag, head.size);
    for (uint32_t i = 0; i < head.size; i++)
        printf("%02x", payload[i]);
    puts(head.size == 0 ? "-" : "");
}

/* Walks over the actions in the room, in their order. */
static void deliver(const uint8_t *room, uint64_t answer) {
    size_t at = 0;
    for (unsigned i = 0; i < stewlattice_actions(answer); i++) {
        struct stewlattice_head head = stewlattice_get_head(room + at);
        perform(head, room + at + STEWLATTICE_HEAD_SIZE);
        at += STEWLATTICE_HEAD_SIZE + head.size;
    }
    if (at != stewlattice_bytes(answer)) {
        fprintf(stderr, "example: %zu bytes of actions, %zu reported\n", at, stewlattice_bytes(answer));
        exit(EXIT_FAILURE);
    }
}

/* Gives the kernel one event. Party and id are those of the channel that the payload came by. */
static void handle(struct host *host, uint8_t party, uint32_t id, uint8_t tag, const void *payload, size_t size) {
    size_t event_len = STEWLATTICE_HEAD_SIZE + size;
    uint8_t *event = allocate(event_len);
    stewlattice_put_head(event, (struct stewlattice_head){party, id, tag, (uint32_t)size});
    memcpy(event + STEWLATTICE_HEAD_SIZE, payload, size);
    uint64_t answer = stewlattice_step(host->table, STEWLATTICE_TABLE_SIZE, host->book, host->book_len, event,
                                       event_len, host->room, STEWLATTICE_ROOM_LEAST);
    free(event);
    printf("E %u %u %u\n", ++host->events, (unsigned)stewlattice_number(answer), stewlattice_actions(answer));
    deliver(host->room, answer);
}

static void open_tab(struct host *host, uint32_t seat, const char *suffix) {
    handle(host, STEWLATTICE_SEAT, seat, STEWLATTICE_FROM_SEAT_OPEN, suffix, strlen(suffix));
}

static void press(struct host *host, uint32_t seat, uint8_t key) {
    handle(host, STEWLATTICE_SEAT, seat, STEWLATTICE_FROM_SEAT_KEY, &key, 1);
}

static void retrieve(struct host *host, uint32_t tab, const char *domain) {
    handle(host, STEWLATTICE_TAB, tab, STEWLATTICE_FROM_TAB_RETRIEVE, domain, strlen(domain));
}

static void give_cookie(struct host *host, uint32_t process, uint32_t tab, const char *cookie) {
    size_t size = 4 + strlen(cookie);
    uint8_t *payload = allocate(size);
    stewlattice_put(payload, 4, tab);
    memcpy(payload + 4, cookie, size - 4);
    handle(host, STEWLATTICE_PROCESS, process, STEWLATTICE_FROM_PROCESS_RESULT, payload, size);
    free(payload);
}

static void play(struct host *host) {
    uint32_t tab = stewlattice_tab_id(1, 1); /* the first tab of seat 1 */
    open_tab(host, 1, "a.com");
    retrieve(host, tab, "www.a.com");
    open_tab(host, 2, "A.com");
    give_cookie(host, 2, tab, "x"); /* of another owner: refused */
    give_cookie(host, 1, tab, "k=v");
    press(host, 1, 25); /* F12 */
}

int main(void) {
    static const uint8_t orders[] = {
        1, 7,   1,                   /* seat 1, tenant 7, options 1: separate */
        2, 7,   0,                   /* seat 2, tenant 7, options 0 */
        3, 'c', 'o', 'm',            /* one listed name */
        0, 0,   2,   0,   0, 6, 0, 1 /* orders at 0, two of them, zero, names at 6, one of them */
    };
    struct host host = {allocate(STEWLATTICE_TABLE_SIZE), allocate(STEWLATTICE_ROOM_LEAST), allocate(sizeof orders),
                        sizeof orders, 0};
    memcpy(host.book, orders, sizeof orders);
    uint64_t answer = stewlattice_start(host.table, STEWLATTICE_TABLE_SIZE, host.book, host.book_len);
    enum stewlattice_numbers number = stewlattice_number(answer);
    if (number == STEWLATTICE_DONE)
        play(&host);
    else
        printf("S %u\n", (unsigned)number);
    free(host.table);
    free(host.room);
    free(host.book);
    return number == STEWLATTICE_DONE ? EXIT_SUCCESS : EXIT_FAILURE;
}
