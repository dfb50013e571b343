/* The table in plain C, for plain.c: its fields, its soundness and what the rules look up in it. Seats, slots and
 * process rows count from 1. */
#ifndef PLAIN_TABLE_H
#define PLAIN_TABLE_H

#include "plain_names.h"

enum {
    SEAT_SIZE = 48,
    TENANT = 0,
    OPTIONS = 1,
    SELECTED = 2,
    SEAT_ZERO = 3,
    OPENS = 4,
    MAP = 6,
    TABS = 8,

    TAB_SIZE = 4,
    SERIAL = 0,
    ROW = 2,
    WAITING = 3,
    WAITS_COOKIE = 1,
    WAITS_DOCUMENT = 2,

    PROCESSES = STEWLATTICE_SEATS * SEAT_SIZE,
    PROCESS_SIZE = 72,
    NUMBER = 0,
    OWNER = 4,
    COUNT = 5,
    NAME_LEN = 6,
    PROCESS_ZERO = 7,
    NAME = 8,

    TRAILER = PROCESSES + STEWLATTICE_PROCESS_ROWS * PROCESS_SIZE,
    LAST_NUMBER = TRAILER + 4
};

static inline uint8_t *seat_at(uint8_t *table, unsigned seat) { return table + (seat - 1) * SEAT_SIZE; }

static inline uint8_t *tab_at(uint8_t *seat, unsigned slot) { return seat + TABS + (slot - 1) * TAB_SIZE; }

static inline uint8_t *process_at(uint8_t *table, unsigned row) { return table + PROCESSES + (row - 1) * PROCESS_SIZE; }

static inline unsigned owner_of(const uint8_t *seat, unsigned number) {
    return seat[OPTIONS] & 1 ? 100 + number : seat[TENANT];
}

/* len is at most PROCESS_SIZE. */
static inline bool all_zero(const uint8_t *s, size_t len) {
    static const uint8_t zeros[PROCESS_SIZE];
    return memcmp(s, zeros, len) == 0;
}

/* Is the live tab of this slot sound, seen from its seat and the process rows? */
static inline bool tab_sound(uint8_t *table, uint8_t *seat, unsigned number, unsigned slot) {
    const uint8_t *tab = tab_at(seat, slot);
    if (get16(tab + SERIAL) > get16(seat + OPENS) || tab[WAITING] > 3)
        return false;
    for (unsigned lower = 1; lower < slot; lower++)
        if (get16(tab_at(seat, lower) + SERIAL) == get16(tab + SERIAL))
            return false;
    if (tab[ROW] < 1 || tab[ROW] > STEWLATTICE_PROCESS_ROWS)
        return false;
    const uint8_t *process = process_at(table, tab[ROW]);
    return get32(process + NUMBER) != 0 && process[OWNER] == owner_of(seat, number);
}

/* Is this seat sound? Counts its tabs into counts, by process row. */
static inline bool seat_sound(uint8_t *table, unsigned number, unsigned *counts) {
    uint8_t *seat = seat_at(table, number);
    unsigned map = get16(seat + MAP), selected = seat[SELECTED];
    if (seat[TENANT] == 0)
        return all_zero(seat, SEAT_SIZE);
    if (seat[TENANT] > 99 || seat[OPTIONS] > 1 || selected > STEWLATTICE_SLOTS || seat[SEAT_ZERO] != 0)
        return false;
    if (map >> STEWLATTICE_SLOTS != 0 || (selected != 0 && !(map >> (selected - 1) & 1)))
        return false;
    for (unsigned slot = 1; slot <= STEWLATTICE_SLOTS; slot++) {
        const uint8_t *tab = tab_at(seat, slot);
        bool live = get16(tab + SERIAL) != 0;
        if (live != (map >> (slot - 1) & 1))
            return false;
        if (live ? !tab_sound(table, seat, number, slot) : !all_zero(tab, TAB_SIZE))
            return false;
        counts[tab[ROW]]++;
    }
    return true;
}

static inline bool same_process(const uint8_t *process, unsigned owner, const uint8_t *name, size_t len) {
    return process[OWNER] == owner && process[NAME_LEN] == len && memcmp(process + NAME, name, len) == 0;
}

/* Is this process row sound, with so many tabs that point at it? */
static inline bool process_sound(uint8_t *table, unsigned row, unsigned count) {
    const uint8_t *process = process_at(table, row), *name = process + NAME;
    uint32_t number = get32(process + NUMBER);
    size_t len = process[NAME_LEN];
    if (number == 0)
        return all_zero(process, PROCESS_SIZE);
    if (number > get32(table + LAST_NUMBER) || count == 0 || process[COUNT] != count || process[PROCESS_ZERO] != 0)
        return false;
    if (len < 3 || len > STEWLATTICE_SUFFIX_MOST || !all_zero(name + len, STEWLATTICE_SUFFIX_MOST - len))
        return false;
    if (!is_name(name, len) || !is_folded(name, len) || memchr(name, '.', len) == NULL)
        return false;
    for (unsigned lower = 1; lower < row; lower++) {
        const uint8_t *other = process_at(table, lower);
        if (get32(other + NUMBER) == number || same_process(other, process[OWNER], name, len))
            return false;
    }
    return true;
}

static inline bool table_sound(uint8_t *table) {
    unsigned counts[STEWLATTICE_PROCESS_ROWS + 1] = {0};
    uint32_t opens = 0;
    for (unsigned seat = 1; seat <= STEWLATTICE_SEATS; seat++) {
        if (!seat_sound(table, seat, counts))
            return false;
        opens += get16(seat_at(table, seat) + OPENS);
    }
    for (unsigned row = 1; row <= STEWLATTICE_PROCESS_ROWS; row++)
        if (!process_sound(table, row, counts[row]))
            return false;
    return get16(table + TRAILER) == 0 && get16(table + TRAILER + 2) == PROCESSES &&
           get32(table + LAST_NUMBER) <= opens;
}

/* The slot of the live tab with this serial, or 0. */
static inline unsigned slot_of(uint8_t *seat, unsigned serial) {
    for (unsigned slot = 1; slot <= STEWLATTICE_SLOTS && serial != 0; slot++)
        if (get16(tab_at(seat, slot) + SERIAL) == serial)
            return slot;
    return 0;
}

/* The row of the live process with this number, or 0. */
static inline unsigned row_of(uint8_t *table, uint32_t number) {
    for (unsigned row = 1; row <= STEWLATTICE_PROCESS_ROWS && number != 0; row++)
        if (get32(process_at(table, row) + NUMBER) == number)
            return row;
    return 0;
}

/* The row of the live process with this owner and folded suffix, or 0. */
static inline unsigned row_with(uint8_t *table, unsigned owner, const uint8_t *suffix, size_t len) {
    for (unsigned row = 1; row <= STEWLATTICE_PROCESS_ROWS; row++)
        if (same_process(process_at(table, row), owner, suffix, len))
            return row;
    return 0;
}

#endif
