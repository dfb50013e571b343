/* What the benchmark measures on: three kernels behind the same two calls, the book, and desks with tabs. A desk is
 * brought on by all three kernels, and only as long as they agree on it. */
#ifndef DESK_H
#define DESK_H

#include "stewlattice.h"
#include <stdbool.h>
#include <stdio.h>
#include <stdlib.h>
#include <string.h>

typedef uint64_t start_call(uint8_t *table, size_t table_len, const uint8_t *book, size_t book_len);
typedef uint64_t step_call(uint8_t *table, size_t table_len, const uint8_t *book, size_t book_len, const uint8_t *event,
                           size_t event_len, uint8_t *out, size_t out_len);

/* plain.c, built under these names, and the Rust reference through its C wrapper. */
start_call plain_start, reference_start;
step_call plain_step, reference_step;

enum { KERNELS = 3 };

static const struct kernel {
    const char *name;
    start_call *start;
    step_call *step;
} kernels[KERNELS] = {{"kernel", stewlattice_start, stewlattice_step},
                      {"plain", plain_start, plain_step},
                      {"reference", reference_start, reference_step}};

struct event {
    uint8_t bytes[STEWLATTICE_HEAD_SIZE + STEWLATTICE_PAYLOAD_MOST];
    size_t len;
};

struct desk {
    uint8_t table[STEWLATTICE_TABLE_SIZE], room[STEWLATTICE_ROOM_LEAST];
};

/* The memory that is lent to the kernels: the same to each, so that none has the better placed, and from the beginning
 * of a page on, since libc's routines count differently near its end. */
static _Alignas(4096) struct desk lent;
static _Alignas(4096) uint8_t book[STEWLATTICE_BOOK_MOST];
static size_t book_len;

static void require(bool holds, const char *who, const char *what) {
    if (!holds) {
        fprintf(stderr, "bench: %s: %s\n", who, what);
        exit(EXIT_FAILURE);
    }
}

static void list_name(const char *name) {
    size_t len = strlen(name);
    book[book_len++] = (uint8_t)len;
    memcpy(book + book_len, name, len);
    book_len += len;
}

/* Eight seats, of which 1, 2 and 7 are separate and 3, 4 and 5 share an owner; so many listed names, 2 at least. */
static void write_book(unsigned names) {
    static const uint8_t orders[] = {1, 7, 1, 2, 7, 1, 3, 12, 0, 4, 12, 0, 5, 12, 0, 6, 13, 0, 7, 13, 1, 8, 20, 0};
    uint8_t trailer[] = {0, 0, STEWLATTICE_SEATS, 0, 0, sizeof orders, 0, 0};
    memcpy(book, orders, sizeof orders);
    book_len = sizeof orders;
    for (unsigned n = 1; n <= names - 2; n++) {
        char name[16];
        snprintf(name, sizeof name, "n%04u.net", n);
        list_name(name);
    }
    list_name("net");
    list_name("org");
    stewlattice_put(trailer + 6, 2, names);
    memcpy(book + book_len, trailer, sizeof trailer);
    book_len += sizeof trailer;
}

static struct event make_event(uint8_t party, uint32_t id, uint8_t tag, const void *payload, size_t size) {
    struct event event = {.len = STEWLATTICE_HEAD_SIZE + size};
    stewlattice_put_head(event.bytes, (struct stewlattice_head){party, id, tag, (uint32_t)size});
    memcpy(event.bytes + STEWLATTICE_HEAD_SIZE, payload, size);
    return event;
}

/* The open of a seat's n-th tab. Every other suffix of the seats 3, 4 and 5 is the same for all three. */
static struct event make_open(unsigned seat, unsigned n) {
    char suffix[STEWLATTICE_SUFFIX_MOST];
    if (seat >= 3 && seat <= 5 && n % 2 == 0)
        snprintf(suffix, sizeof suffix, "portal-%u.org", n);
    else
        snprintf(suffix, sizeof suffix, "carrier-%u-desk-%u.net", n, seat);
    return make_event(STEWLATTICE_SEAT, seat, STEWLATTICE_FROM_SEAT_OPEN, suffix, strlen(suffix));
}

static uint64_t step(unsigned k, const struct event *event) {
    return kernels[k].step(lent.table, sizeof lent.table, book, book_len, event->bytes, event->len, lent.room,
                           sizeof lent.room);
}

/* What is lent must be this desk, byte for byte, once the kernel has returned. */
static void require_desk(unsigned k, const struct desk *desk) {
    require(memcmp(lent.table, desk->table, sizeof lent.table) == 0, kernels[k].name,
            "table differs from the kernel's");
    require(memcmp(lent.room, desk->room, sizeof lent.room) == 0, kernels[k].name,
            "output room differs from the kernel's");
}

/* A request that is denied is answered with one error action to the tab. */
static bool is_denied(uint64_t answer, const struct desk *desk) {
    struct stewlattice_head head = stewlattice_get_head(desk->room);
    return stewlattice_actions(answer) == 1 && head.party == STEWLATTICE_TAB && head.tag == STEWLATTICE_TO_TAB_ERROR;
}

/* Gives the desk and the event to each kernel. They must do what is asked, and agree on answer, table and room. */
static void bring_on(struct desk *desk, const struct event *event) {
    struct desk before = *desk;
    uint64_t answer = 0;
    for (unsigned k = 0; k < KERNELS; k++) {
        lent = before;
        uint64_t given = step(k, event);
        if (k == 0) {
            answer = given;
            *desk = lent;
        }
        require(given == answer, kernels[k].name, "answer differs from the kernel's");
        require_desk(k, desk);
    }
    require(stewlattice_number(answer) == STEWLATTICE_DONE, "all", "a step is refused");
    require(!is_denied(answer, desk), "all", "a request is denied");
}

/* A new start with the book, and so many tabs on each seat. */
static struct desk make_desk(unsigned tabs) {
    struct desk desk;
    for (unsigned k = 0; k < KERNELS; k++) {
        memset(&lent, 0xa5, sizeof lent);
        require(kernels[k].start(lent.table, sizeof lent.table, book, book_len) == 0, kernels[k].name, "start refused");
        if (k == 0)
            desk = lent;
        require_desk(k, &desk);
    }
    for (unsigned n = 1; n <= tabs; n++)
        for (unsigned seat = 1; seat <= STEWLATTICE_SEATS; seat++) {
            struct event open = make_open(seat, n);
            bring_on(&desk, &open);
        }
    return desk;
}

#endif
