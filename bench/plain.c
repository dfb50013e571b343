/* The rule sheet in plain C: the two calls of stewlattice.h without a proof, for the benchmark to compare with.
 * Here are the rules for events from a tab, a process and the network, and the reading of a frame. */
#include "plain_seat.h"

/* Is this a name under the tab's suffix? */
static bool within(const struct tab *tab, const uint8_t *name, size_t len) {
    return is_name(name, len) && is_under(name, len, tab->process + NAME, tab->process[NAME_LEN]);
}

static bool socket_allowed(struct step *step, const struct tab *tab) {
    const uint8_t *payload = step->payload;
    size_t size = step->head.size;
    if (get16(payload) == 0 || !within(tab, payload + 2, size - 2))
        return false;
    uint8_t *to = act(step, STEWLATTICE_HOST, tab->id, STEWLATTICE_TO_HOST_OPEN_SOCKET, size);
    memcpy(to, payload, 2);
    copy_folded(to + 2, payload + 2, size - 2);
    return true;
}

static bool is_url(const uint8_t *url, size_t len) {
    if (len < 8 || len > STEWLATTICE_URL_MOST)
        return false;
    for (size_t i = 0; i < len; i++)
        if (url[i] < 33 || url[i] > 126)
            return false;
    return memcmp(url, "http://", 7) == 0 || (len > 8 && memcmp(url, "https://", 8) == 0);
}

static bool url_allowed(struct step *step, const struct tab *tab) {
    if (!is_url(step->payload, step->head.size) || (tab->row[WAITING] & WAITS_DOCUMENT))
        return false;
    tab->row[WAITING] |= WAITS_DOCUMENT;
    send(step, STEWLATTICE_NETWORK, tab->id, STEWLATTICE_TO_NETWORK_FETCH, step->payload, step->head.size);
    return true;
}

static bool store_allowed(struct step *step, const struct tab *tab) {
    const uint8_t *payload = step->payload;
    size_t size = step->head.size, len = payload[0];
    if (!within(tab, payload + 1, len))
        return false;
    uint8_t *to = act(step, STEWLATTICE_PROCESS, get32(tab->process + NUMBER), STEWLATTICE_TO_PROCESS_SET, size);
    to[0] = payload[0];
    copy_folded(to + 1, payload + 1, len);
    memcpy(to + 1 + len, payload + 1 + len, size - 1 - len);
    return true;
}

static bool retrieve_allowed(struct step *step, const struct tab *tab) {
    size_t len = step->head.size;
    if ((tab->row[WAITING] & WAITS_COOKIE) || !within(tab, step->payload, len))
        return false;
    tab->row[WAITING] |= WAITS_COOKIE;
    uint32_t number = get32(tab->process + NUMBER);
    uint8_t *to = act(step, STEWLATTICE_PROCESS, number, STEWLATTICE_TO_PROCESS_GET, 4 + len);
    stewlattice_put(to, 4, tab->id);
    copy_folded(to + 4, step->payload, len);
    return true;
}

static bool display(struct step *step, const struct tab *tab) {
    if (tab->record[SELECTED] == tab->slot)
        send(step, STEWLATTICE_SEAT, tab->seat, STEWLATTICE_TO_SEAT_PAINT, step->payload, step->head.size);
    return true;
}

static bool tab_allowed(struct step *step, const struct tab *tab) {
    switch (step->head.tag) {
    case STEWLATTICE_FROM_TAB_DISPLAY:
        return display(step, tab);
    case STEWLATTICE_FROM_TAB_SOCKET:
        return socket_allowed(step, tab);
    case STEWLATTICE_FROM_TAB_URL:
        return url_allowed(step, tab);
    case STEWLATTICE_FROM_TAB_STORE:
        return store_allowed(step, tab);
    default:
        return retrieve_allowed(step, tab);
    }
}

static unsigned from_tab(struct step *step) {
    struct tab tab;
    if (!find_tab(step, step->head.id, &tab))
        return STEWLATTICE_NO_SENDER;
    if (!tab_allowed(step, &tab))
        act(step, STEWLATTICE_TAB, tab.id, STEWLATTICE_TO_TAB_ERROR, 0);
    return STEWLATTICE_DONE;
}

/* Passes on what follows the tab id if that tab waits for it, and hangs on the process row unless row is 0. */
static unsigned pass_on(struct step *step, unsigned row, uint8_t mark, uint8_t tag) {
    struct tab tab;
    if (!find_tab(step, get32(step->payload), &tab) || !(tab.row[WAITING] & mark) || (row != 0 && tab.row[ROW] != row))
        return STEWLATTICE_NOT_AWAITED;
    tab.row[WAITING] &= (uint8_t)~mark;
    send(step, STEWLATTICE_TAB, tab.id, tag, step->payload + 4, step->head.size - 4);
    return STEWLATTICE_DONE;
}

static unsigned from_process(struct step *step) {
    unsigned row = row_of(step->table, step->head.id);
    if (row == 0)
        return STEWLATTICE_NO_SENDER;
    return pass_on(step, row, WAITS_COOKIE, STEWLATTICE_TO_TAB_COOKIE);
}

static unsigned from_network(struct step *step) {
    if (step->head.id != 0)
        return STEWLATTICE_NO_SENDER;
    return pass_on(step, 0, WAITS_DOCUMENT, STEWLATTICE_TO_TAB_DOCUMENT);
}

static bool seat_fits(unsigned tag, size_t size) {
    return tag == STEWLATTICE_FROM_SEAT_KEY     ? size == 1
           : tag == STEWLATTICE_FROM_SEAT_MOUSE ? size == 4
                                                : tag == STEWLATTICE_FROM_SEAT_OPEN;
}

static bool tab_fits(unsigned tag, const uint8_t *payload, size_t size) {
    switch (tag) {
    case STEWLATTICE_FROM_TAB_DISPLAY:
        return size == 12;
    case STEWLATTICE_FROM_TAB_SOCKET:
        return size >= 2;
    case STEWLATTICE_FROM_TAB_STORE:
        return size >= 1 && size >= 1u + payload[0];
    case STEWLATTICE_FROM_TAB_URL:
    case STEWLATTICE_FROM_TAB_RETRIEVE:
        return true;
    default:
        return false;
    }
}

/* Is it a frame of a known party and tag, with a payload that fits? */
static bool fits(struct stewlattice_head head, const uint8_t *payload, size_t size) {
    if (size > STEWLATTICE_PAYLOAD_MOST || head.size != size)
        return false;
    switch (head.party) {
    case STEWLATTICE_SEAT:
        return seat_fits(head.tag, size);
    case STEWLATTICE_TAB:
        return tab_fits(head.tag, payload, size);
    case STEWLATTICE_PROCESS:
        return head.tag == STEWLATTICE_FROM_PROCESS_RESULT && size >= 4;
    case STEWLATTICE_NETWORK:
        return head.tag == STEWLATTICE_FROM_NETWORK_DOCUMENT && size >= 4;
    default:
        return false;
    }
}

static unsigned serve(struct step *step, const uint8_t *event, size_t event_len) {
    if (event_len < STEWLATTICE_HEAD_SIZE)
        return STEWLATTICE_BAD_FRAME;
    step->head = stewlattice_get_head(event);
    step->payload = event + STEWLATTICE_HEAD_SIZE;
    if (!fits(step->head, step->payload, event_len - STEWLATTICE_HEAD_SIZE))
        return STEWLATTICE_BAD_FRAME;
    switch (step->head.party) {
    case STEWLATTICE_SEAT:
        return from_seat(step);
    case STEWLATTICE_TAB:
        return from_tab(step);
    case STEWLATTICE_PROCESS:
        return from_process(step);
    default:
        return from_network(step);
    }
}

uint64_t stewlattice_start(uint8_t *table, size_t table_len, const uint8_t *book, size_t book_len) {
    if (table_len != STEWLATTICE_TABLE_SIZE)
        return STEWLATTICE_BAD_TABLE;
    if (!book_sound(book, book_len))
        return STEWLATTICE_BAD_BOOK;
    memset(table, 0, table_len);
    for (size_t i = 0; i < book[book_len - 6]; i++) {
        uint8_t *record = seat_at(table, book[3 * i]);
        record[TENANT] = book[3 * i + 1];
        record[OPTIONS] = book[3 * i + 2];
    }
    stewlattice_put(table + TRAILER + 2, 2, PROCESSES);
    return STEWLATTICE_DONE;
}

uint64_t stewlattice_step(uint8_t *table, size_t table_len, const uint8_t *book, size_t book_len, const uint8_t *event,
                          size_t event_len, uint8_t *out, size_t out_len) {
    struct step step = {.table = table, .book = book, .book_len = book_len, .out = out};
    if (out_len < STEWLATTICE_ROOM_LEAST)
        return STEWLATTICE_SHORT_ROOM;
    if (table_len != STEWLATTICE_TABLE_SIZE || !table_sound(table))
        return STEWLATTICE_BAD_TABLE;
    uint64_t number = serve(&step, event, event_len);
    return number | (uint64_t)step.actions << 8 | (uint64_t)step.bytes << 16;
}
