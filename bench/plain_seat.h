/* A step in plain C, for plain.c: the actions that it writes, and the rules for events from a seat. */
#ifndef PLAIN_SEAT_H
#define PLAIN_SEAT_H

#include "plain_table.h"

/* One step under way. Nothing is written, to the table or to the room, before the last test for a refusal. */
struct step {
    uint8_t *table;
    const uint8_t *book;
    size_t book_len;
    struct stewlattice_head head;
    const uint8_t *payload;
    uint8_t *out;
    unsigned actions;
    size_t bytes;
};

/* A live tab. */
struct tab {
    unsigned seat, slot;
    uint32_t id;
    uint8_t *record; /* of the seat */
    uint8_t *row;    /* of the tab */
    uint8_t *process;
};

/* Writes the head of one more action and gives the place of its payload. */
static inline uint8_t *act(struct step *step, uint8_t party, uint32_t id, uint8_t tag, size_t size) {
    uint8_t *frame = step->out + step->bytes;
    stewlattice_put_head(frame, (struct stewlattice_head){party, id, tag, (uint32_t)size});
    step->actions++;
    step->bytes += STEWLATTICE_HEAD_SIZE + size;
    return frame + STEWLATTICE_HEAD_SIZE;
}

static inline void send(struct step *step, uint8_t party, uint32_t id, uint8_t tag, const uint8_t *payload,
                        size_t size) {
    memcpy(act(step, party, id, tag, size), payload, size);
}

static inline struct tab tab_in(struct step *step, unsigned seat, unsigned slot) {
    uint8_t *record = seat_at(step->table, seat), *row = tab_at(record, slot);
    uint32_t id = stewlattice_tab_id(seat, get16(row + SERIAL));
    return (struct tab){seat, slot, id, record, row, process_at(step->table, row[ROW])};
}

/* Finds the live tab of an id. */
static inline bool find_tab(struct step *step, uint32_t id, struct tab *tab) {
    uint32_t seat = stewlattice_tab_seat(id);
    if (seat < 1 || seat > STEWLATTICE_SEATS)
        return false;
    unsigned slot = slot_of(seat_at(step->table, seat), stewlattice_tab_serial(id));
    if (slot != 0)
        *tab = tab_in(step, seat, slot);
    return slot != 0;
}

static inline void show_bar(struct step *step, const struct tab *tab) {
    send(step, STEWLATTICE_SEAT, tab->seat, STEWLATTICE_TO_SEAT_BAR, tab->process + NAME, tab->process[NAME_LEN]);
}

static inline void pick(struct step *step, unsigned seat, unsigned slot) {
    struct tab tab = tab_in(step, seat, slot);
    tab.record[SELECTED] = (uint8_t)slot;
    act(step, STEWLATTICE_TAB, tab.id, STEWLATTICE_TO_TAB_RENDER, 0);
    show_bar(step, &tab);
}

static inline void close_tab(struct step *step, unsigned seat, unsigned slot) {
    struct tab tab = tab_in(step, seat, slot);
    act(step, STEWLATTICE_HOST, tab.id, STEWLATTICE_TO_HOST_STOP_TAB, 0);
    if (--tab.process[COUNT] == 0) {
        act(step, STEWLATTICE_HOST, get32(tab.process + NUMBER), STEWLATTICE_TO_HOST_STOP_PROCESS, 0);
        memset(tab.process, 0, PROCESS_SIZE);
    }
    act(step, STEWLATTICE_SEAT, seat, STEWLATTICE_TO_SEAT_BAR, 0);
    memset(tab.row, 0, TAB_SIZE);
    stewlattice_put(tab.record + MAP, 2, get16(tab.record + MAP) & ~(1u << (slot - 1)));
    tab.record[SELECTED] = 0;
}

static inline unsigned key(struct step *step, unsigned seat, unsigned selected) {
    unsigned code = step->payload[0];
    if (code >= 14 && code <= 23) {
        if (get16(tab_at(seat_at(step->table, seat), code - 13) + SERIAL) != 0)
            pick(step, seat, code - 13);
    } else if (code == 25) {
        if (selected != 0)
            close_tab(step, seat, selected);
    } else if (code == 8 || code == 9 || code == 10 || code == 13 || (code >= 32 && code <= 126)) {
        if (selected != 0)
            send(step, STEWLATTICE_TAB, tab_in(step, seat, selected).id, STEWLATTICE_TO_TAB_KEY, step->payload, 1);
    } else {
        return STEWLATTICE_BAD_KEY;
    }
    return STEWLATTICE_DONE;
}

/* Starts a process in the lowest free row, which it gives. */
static inline unsigned start_process(struct step *step, unsigned owner, const uint8_t *suffix, size_t len) {
    unsigned row = 1;
    while (get32(process_at(step->table, row) + NUMBER) != 0)
        row++;
    uint8_t *process = process_at(step->table, row);
    uint32_t number = get32(step->table + LAST_NUMBER) + 1;
    stewlattice_put(step->table + LAST_NUMBER, 4, number);
    stewlattice_put(process + NUMBER, 4, number);
    process[OWNER] = (uint8_t)owner;
    process[NAME_LEN] = (uint8_t)len;
    memcpy(process + NAME, suffix, len);
    uint8_t *payload = act(step, STEWLATTICE_HOST, number, STEWLATTICE_TO_HOST_START_PROCESS, 1 + len);
    payload[0] = (uint8_t)owner;
    memcpy(payload + 1, suffix, len);
    return row;
}

static inline void open_tab(struct step *step, unsigned seat, const uint8_t *suffix, size_t len) {
    uint8_t *record = seat_at(step->table, seat);
    unsigned owner = owner_of(record, seat), serial = get16(record + OPENS) + 1, map = get16(record + MAP), slot = 1;
    while (map >> (slot - 1) & 1)
        slot++;
    unsigned row = row_with(step->table, owner, suffix, len);
    if (row == 0)
        row = start_process(step, owner, suffix, len);
    process_at(step->table, row)[COUNT]++;
    record[SELECTED] = (uint8_t)slot;
    stewlattice_put(record + OPENS, 2, serial);
    stewlattice_put(record + MAP, 2, map | 1u << (slot - 1));
    stewlattice_put(tab_at(record, slot) + SERIAL, 2, serial);
    tab_at(record, slot)[ROW] = (uint8_t)row;
    struct tab tab = tab_in(step, seat, slot);
    act(step, STEWLATTICE_HOST, tab.id, STEWLATTICE_TO_HOST_START_TAB, 0);
    send(step, STEWLATTICE_TAB, tab.id, STEWLATTICE_TO_TAB_GO, suffix, len);
    show_bar(step, &tab);
}

static inline unsigned open(struct step *step, unsigned seat) {
    const uint8_t *record = seat_at(step->table, seat);
    uint8_t suffix[STEWLATTICE_SUFFIX_MOST];
    size_t len = step->head.size;
    if (!book_sound(step->book, step->book_len))
        return STEWLATTICE_BAD_BOOK;
    if (len == 0 || suffix_len(step->payload, len, step->book, step->book_len) != len)
        return STEWLATTICE_BAD_SUFFIX;
    if (get16(record + MAP) == (1u << STEWLATTICE_SLOTS) - 1)
        return STEWLATTICE_FULL_SEAT;
    if (get16(record + OPENS) == STEWLATTICE_OPENS_MOST)
        return STEWLATTICE_SPENT_SEAT;
    copy_folded(suffix, step->payload, len);
    open_tab(step, seat, suffix, len);
    return STEWLATTICE_DONE;
}

static inline unsigned from_seat(struct step *step) {
    uint32_t seat = step->head.id;
    if (seat < 1 || seat > STEWLATTICE_SEATS || seat_at(step->table, seat)[TENANT] == 0)
        return STEWLATTICE_NO_SENDER;
    unsigned selected = seat_at(step->table, seat)[SELECTED];
    if (step->head.tag == STEWLATTICE_FROM_SEAT_KEY)
        return key(step, seat, selected);
    if (step->head.tag == STEWLATTICE_FROM_SEAT_OPEN)
        return open(step, seat);
    if (selected != 0)
        send(step, STEWLATTICE_TAB, tab_in(step, seat, selected).id, STEWLATTICE_TO_TAB_MOUSE, step->payload, 4);
    return STEWLATTICE_DONE;
}

#endif
