/* What becomes of a child that is lost; see host.h.
 *
 * The kernel knows no such event. Its one way to take a tab out of the table is F12, which closes the tab that the
 * seat has selected. So the host presses three keys in the seat's name: the F key of the lost tab's slot, F12, and the
 * F key of the slot that was selected before, if that was another one. They are the only keys that a host makes up, and
 * it makes them up in one go: no key that is typed gets in between, and none that was meant for the lost tab reaches
 * another, for the selection is afterwards what it was, or empty.
 *
 * A lost tab is closed so. Its cookie process lives on while other tabs hang on it, and a new tab finds it again.
 *
 * A lost cookie process takes its store along. A new one in its place would answer as if nothing had ever been stored,
 * and what its tabs wait for would never come. So every tab that hangs on it is closed, by which the kernel clears
 * its row too; who opens again gets a process with a new number, and signs in anew.
 *
 * Without its network, a host cannot go on.
 *
 * In which slot a tab is and what it hangs on, no action says: the host reads its table, as document 01 lays it out. */
#include "host.h"
#include <inttypes.h>
#include <stdio.h>

enum {
    SEAT_SIZE = 48,
    SEAT_SELECTED = 2,
    SEAT_TABS = 8, /* ten tab rows of 4: serial (2), process row, waiting */
    TAB_SIZE = 4,
    TAB_PROCESS_ROW = 2,
    PROCESSES_AT = 384,
    PROCESS_SIZE = 72 /* the number (4) first */
};

static const uint8_t *seat_record(const struct host *host, uint32_t seat) {
    return host->table + SEAT_SIZE * (seat - 1);
}

static const uint8_t *tab_row(const struct host *host, uint32_t seat, unsigned slot) {
    return seat_record(host, seat) + SEAT_TABS + TAB_SIZE * (slot - 1);
}

/* The id of the tab in a slot, or 0. */
static uint32_t tab_in(const struct host *host, uint32_t seat, unsigned slot) {
    uint32_t serial = stewlattice_get(tab_row(host, seat, slot), 2);
    return serial == 0 ? 0 : stewlattice_tab_id(seat, serial);
}

/* The number of the process that the tab in a slot hangs on. */
static uint32_t process_of(const struct host *host, uint32_t seat, unsigned slot) {
    unsigned row = tab_row(host, seat, slot)[TAB_PROCESS_ROW];
    return stewlattice_get(host->table + PROCESSES_AT + PROCESS_SIZE * (row - 1), 4);
}

static void close_slot(struct host *host, uint32_t seat, unsigned slot) {
    unsigned before = seat_record(host, seat)[SEAT_SELECTED];
    if (before != slot)
        host_press(host, seat, (uint8_t)(KEY_F1 + slot - 1));
    host_press(host, seat, KEY_F12);
    if (before != slot && before != 0)
        host_press(host, seat, (uint8_t)(KEY_F1 + before - 1));
}

static const char *consequence(uint8_t party) {
    if (party == STEWLATTICE_TAB)
        return "it is closed";
    return party == STEWLATTICE_PROCESS ? "its tabs are closed" : "the host cannot go on";
}

void host_clear(struct host *host, struct child *child) {
    uint8_t party = child->party;
    uint32_t id = child->id;
    host->losses++;
    printf("lost: %s %" PRIu32 ", %s; %s\n", host_party(party), id, child->why, consequence(party));
    for (uint32_t seat = 1; seat <= STEWLATTICE_SEATS; seat++)
        for (unsigned slot = 1; slot <= STEWLATTICE_SLOTS; slot++) {
            uint32_t tab = tab_in(host, seat, slot);
            if (tab != 0 && id == (party == STEWLATTICE_TAB ? tab : process_of(host, seat, slot)))
                close_slot(host, seat, slot);
        }
    if (children_find(&host->children, party, id) != NULL) /* the kernel did not have it stopped: it is the network */
        host->is_over = true;
}
