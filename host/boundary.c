/* The C boundary, tried from the host's side: the helpers of the header, each refusal and what it leaves, buffers that
 * are NULL, of exact size, or at odd addresses. Prints a line for each case that fails; the last line counts them. */
#include "stewlattice.h"
#include <stdbool.h>
#include <stdio.h>
#include <stdlib.h>
#include <string.h>

static const uint8_t book[] = {1, 7, 1, 2, 7, 0, 3, 'c', 'o', 'm', 0, 0, 2, 0, 0, 6, 0, 1};

static unsigned passed, failed;

static void check(bool holds, const char *what) {
    if (holds)
        passed++;
    else
        failed++, printf("failed: %s\n", what);
}

/* What is lent to a step; every buffer is of its exact size, so that a checker of memory sees a byte too far. */
struct lent {
    uint8_t *table, *book, *event, *room;
    size_t table_len, book_len, event_len, room_len;
};

static uint8_t *lend(size_t size, const void *bytes) {
    uint8_t *lent = malloc(size);
    if (lent == NULL)
        exit(EXIT_FAILURE);
    if (bytes != NULL)
        memcpy(lent, bytes, size);
    else
        memset(lent, 0xa5, size);
    return lent;
}

static enum stewlattice_numbers start(const struct lent *l) {
    return stewlattice_number(stewlattice_start(l->table, l->table_len, l->book, l->book_len));
}

static uint64_t step(const struct lent *l) {
    return stewlattice_step(l->table, l->table_len, l->book, l->book_len, l->event, l->event_len, l->room, l->room_len);
}

static void set_event(struct lent *l, uint8_t party, uint32_t id, uint8_t tag, const void *payload, size_t size) {
    free(l->event);
    l->event_len = STEWLATTICE_HEAD_SIZE + size;
    l->event = lend(l->event_len, NULL);
    stewlattice_put_head(l->event, (struct stewlattice_head){party, id, tag, (uint32_t)size});
    memcpy(l->event + STEWLATTICE_HEAD_SIZE, payload, size);
}

static void set_key(struct lent *l, uint32_t seat, uint8_t code) {
    set_event(l, STEWLATTICE_SEAT, seat, STEWLATTICE_FROM_SEAT_KEY, &code, 1);
}

static void set_open(struct lent *l, uint32_t seat, const char *suffix) {
    set_event(l, STEWLATTICE_SEAT, seat, STEWLATTICE_FROM_SEAT_OPEN, suffix, strlen(suffix));
}

/* A started table; seat 1 has one tab, a.com. */
static struct lent begin(void) {
    struct lent l = {.table_len = STEWLATTICE_TABLE_SIZE, .book_len = sizeof book, .room_len = STEWLATTICE_ROOM_LEAST};
    l.table = lend(l.table_len, NULL);
    l.book = lend(l.book_len, book);
    l.room = lend(l.room_len, NULL);
    check(start(&l) == STEWLATTICE_DONE, "start");
    set_open(&l, 1, "a.com");
    check(stewlattice_number(step(&l)) == STEWLATTICE_DONE, "open");
    return l;
}

static void end(struct lent *l) {
    free(l->table);
    free(l->book);
    free(l->event);
    free(l->room);
}

/* Is the step refused with this number, its counts 0, and no byte of table and room changed? */
static void refused(const struct lent *l, enum stewlattice_numbers number, const char *what) {
    uint8_t *table = lend(l->table_len, l->table), *room = lend(l->room_len, l->room);
    uint64_t answer = step(l);
    check(stewlattice_number(answer) == number, what);
    check(stewlattice_actions(answer) == 0 && stewlattice_bytes(answer) == 0, what);
    check(memcmp(table, l->table, l->table_len) == 0 && memcmp(room, l->room, l->room_len) == 0, what);
    free(table);
    free(room);
}

static void try_helpers(void) {
    uint64_t answer = 10 | 4 << 8 | (uint64_t)4106 << 16 | (uint64_t)255 << 32;
    check(stewlattice_number(answer) == STEWLATTICE_NOT_AWAITED, "number of an answer");
    check(stewlattice_actions(answer) == 4, "actions of an answer");
    check(stewlattice_bytes(answer) == STEWLATTICE_ROOM_LEAST, "bytes of an answer");
    static const uint8_t bytes[STEWLATTICE_HEAD_SIZE] = {5, 0x01, 0x02, 0x03, 0x04, 3, 0, 0, 0x10, 0x00};
    struct stewlattice_head head = {STEWLATTICE_HOST, 0x01020304, STEWLATTICE_TO_HOST_START_PROCESS, 4096};
    uint8_t written[STEWLATTICE_HEAD_SIZE];
    stewlattice_put_head(written, head);
    check(memcmp(written, bytes, sizeof bytes) == 0, "a head written");
    head = stewlattice_get_head(bytes);
    check(head.party == 5 && head.id == 0x01020304 && head.tag == 3 && head.size == 4096, "a head read");
    uint32_t id = stewlattice_tab_id(STEWLATTICE_SEATS, STEWLATTICE_OPENS_MOST);
    check(id == 589823 && stewlattice_tab_seat(id) == 8 && stewlattice_tab_serial(id) == 65535, "a tab id");
}

/* Refusals 1 to 5: what is refused whatever the event asks for. */
static void try_common_refusals(void) {
    struct lent l = begin();
    set_key(&l, 1, 'k');
    l.room_len--;
    refused(&l, STEWLATTICE_SHORT_ROOM, "a room of 4,105 bytes");
    l.room_len++;
    l.table_len--;
    refused(&l, STEWLATTICE_BAD_TABLE, "a table of 6,151 bytes");
    l.table_len++;
    l.table[3] = 1;
    refused(&l, STEWLATTICE_BAD_TABLE, "an unsound table");
    l.table[3] = 0;
    set_event(&l, STEWLATTICE_SEAT, 1, STEWLATTICE_FROM_SEAT_KEY, "kk", 2);
    refused(&l, STEWLATTICE_BAD_FRAME, "a key of 2 bytes");
    l.event_len = STEWLATTICE_HEAD_SIZE - 1;
    uint8_t *cut = lend(l.event_len, l.event);
    free(l.event);
    l.event = cut;
    refused(&l, STEWLATTICE_BAD_FRAME, "a frame of 9 bytes");
    set_key(&l, 3, 'k');
    refused(&l, STEWLATTICE_NO_SENDER, "a seat not let");
    set_key(&l, 1, 24);
    refused(&l, STEWLATTICE_BAD_KEY, "key 24");
    set_event(&l, STEWLATTICE_PROCESS, 1, STEWLATTICE_FROM_PROCESS_RESULT, "\0\1\0\1x", 5);
    refused(&l, STEWLATTICE_NOT_AWAITED, "a result that no tab waits for");
    end(&l);
}

/* Refusals 6 to 9, of open. */
static void try_open_refusals(void) {
    struct lent l = begin();
    set_open(&l, 1, "a.com");
    l.book_len--;
    refused(&l, STEWLATTICE_BAD_BOOK, "an unsound book");
    l.book_len++;
    set_open(&l, 1, "com");
    refused(&l, STEWLATTICE_BAD_SUFFIX, "a listed name for a suffix");
    set_open(&l, 1, "a.com");
    memset(l.table + 4, 0xff, 2);
    refused(&l, STEWLATTICE_SPENT_SEAT, "opens is 65,535");
    memset(l.table + 4, 0, 2);
    l.table[5] = 1;
    for (unsigned tabs = 1; tabs < STEWLATTICE_SLOTS; tabs++)
        check(stewlattice_actions(step(&l)) == 3, "ten tabs");
    refused(&l, STEWLATTICE_FULL_SEAT, "an eleventh tab");
    end(&l);
}

static void try_null(void) {
    struct lent none = {0}, l = begin();
    check(start(&none) == STEWLATTICE_BAD_TABLE, "start with nothing");
    check(stewlattice_number(step(&none)) == STEWLATTICE_SHORT_ROOM, "step with nothing");
    none.room = l.room;
    none.room_len = l.room_len;
    check(stewlattice_number(step(&none)) == STEWLATTICE_BAD_TABLE, "step with no table");
    none.table = l.table;
    none.table_len = l.table_len;
    check(start(&none) == STEWLATTICE_BAD_BOOK, "start with no book");
    check(stewlattice_number(step(&none)) == STEWLATTICE_BAD_FRAME, "step with no event");
    set_key(&l, 1, 'k');
    none.event = l.event;
    none.event_len = l.event_len;
    check(stewlattice_actions(step(&none)) == 1, "a key with no book");
    end(&l);
}

/* The largest payload fills the room to its last byte; the next action leaves what follows its own bytes. */
static void try_room(void) {
    struct lent l = begin();
    static uint8_t store[STEWLATTICE_PAYLOAD_MOST] = {5, 'A', '.', 'c', 'o', 'm'};
    set_event(&l, STEWLATTICE_TAB, 65537, STEWLATTICE_FROM_TAB_STORE, store, sizeof store);
    uint64_t answer = step(&l);
    check(stewlattice_number(answer) == 0 && stewlattice_actions(answer) == 1, "the largest store");
    check(stewlattice_bytes(answer) == STEWLATTICE_ROOM_LEAST, "the largest store's bytes");
    store[1] = 'a';
    check(memcmp(l.room + STEWLATTICE_HEAD_SIZE, store, sizeof store) == 0, "the largest store's payload");
    store[1] = 'A';
    set_key(&l, 1, 'k');
    memset(l.room, 0xa5, l.room_len);
    check(stewlattice_bytes(step(&l)) == 11 && l.room[10] == 'k', "a key");
    bool stay = true;
    for (size_t i = 11; i < l.room_len; i++)
        stay = stay && l.room[i] == 0xa5;
    check(stay, "bytes past those written stay");
    end(&l);
}

/* A table that is copied to another address, an odd one, is the same table; so with the other buffers. */
static void try_odd_addresses(void) {
    struct lent l = begin(), odd = l;
    set_key(&l, 1, 25);
    odd.event_len = l.event_len;
    uint8_t *base[] = {lend(l.table_len + 1, NULL), lend(l.book_len + 1, NULL), lend(l.event_len + 1, NULL),
                       lend(l.room_len + 1, NULL)};
    odd.table = memcpy(base[0] + 1, l.table, l.table_len);
    odd.book = memcpy(base[1] + 1, l.book, l.book_len);
    odd.event = memcpy(base[2] + 1, l.event, l.event_len);
    odd.room = memcpy(base[3] + 1, l.room, l.room_len);
    uint64_t answer = step(&l);
    check(stewlattice_actions(answer) == 3 && step(&odd) == answer, "answer at odd addresses");
    check(memcmp(l.table, odd.table, l.table_len) == 0, "table at an odd address");
    check(memcmp(l.room, odd.room, l.room_len) == 0, "room at an odd address");
    for (size_t i = 0; i < sizeof base / sizeof base[0]; i++)
        free(base[i]);
    end(&l);
}

int main(void) {
    try_helpers();
    try_common_refusals();
    try_open_refusals();
    try_null();
    try_room();
    try_odd_addresses();
    printf("%u passed, %u failed\n", passed, failed);
    return failed == 0 && passed > 0 ? EXIT_SUCCESS : EXIT_FAILURE;
}
