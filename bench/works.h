/* What the benchmark measures: the events, one of each kind, and the works made of them. The events are seat 1's, or of
 * its first tab, which hangs on process 1. */
#ifndef WORKS_H
#define WORKS_H

#include "desk.h"

#define HOST "www.carrier-1-desk-1.net"
#define TAB "\0\1\0\1"
#define COOKIE "session=0123456789abcdef0123456789abcdef"

enum kind { NONE, KEY, SELECT, CLOSE, MOUSE, OPEN, JOIN, DISPLAY, SOCKET, URL, STORE, RETRIEVE, RESULT, DOCUMENT };

/* One step, or two that undo each other. The event before them, if there is one, is not measured. */
struct work {
    const char *name;
    enum kind before, measured[2];
};

static const struct work kinds[] = {{"key", NONE, {KEY}},
                                    {"select", NONE, {SELECT}},
                                    {"mouse", NONE, {MOUSE}},
                                    {"open, new process", NONE, {OPEN}},
                                    {"open, live process", NONE, {JOIN}},
                                    {"close", NONE, {CLOSE}},
                                    {"display", SELECT, {DISPLAY}},
                                    {"socket", NONE, {SOCKET}},
                                    {"URL", NONE, {URL}},
                                    {"document", URL, {DOCUMENT}},
                                    {"store", NONE, {STORE}},
                                    {"retrieve", NONE, {RETRIEVE}},
                                    {"result", RETRIEVE, {RESULT}}};

static const struct work key_alone = {"key", NONE, {KEY}};
static const struct work retrieve_result = {"retrieve, result", NONE, {RETRIEVE, RESULT}};
/* With ten tabs on the seat an open would be refused, so there the pair begins with its close. */
static const struct work open_close = {"open, close", NONE, {OPEN, CLOSE}};
static const struct work close_open = {"open, close", NONE, {CLOSE, OPEN}};
static const struct work open_alone = {"open", NONE, {OPEN}};

static struct event from_seat(uint8_t tag, const void *payload, size_t size) {
    return make_event(STEWLATTICE_SEAT, 1, tag, payload, size);
}

static struct event from_tab(uint8_t tag, const void *payload, size_t size) {
    return make_event(STEWLATTICE_TAB, stewlattice_tab_id(1, 1), tag, payload, size);
}

/* The largest payload that begins so. */
static const uint8_t *largest(const void *begin, size_t size) {
    static uint8_t payload[STEWLATTICE_PAYLOAD_MOST];
    memset(payload, 'c', sizeof payload);
    memcpy(payload, begin, size);
    return payload;
}

static struct event make_store(void) {
    uint8_t domain[sizeof HOST] = {sizeof HOST - 1};
    memcpy(domain + 1, HOST, sizeof HOST - 1);
    return from_tab(STEWLATTICE_FROM_TAB_STORE, largest(domain, sizeof domain), STEWLATTICE_PAYLOAD_MOST);
}

static struct event make_result(void) {
    static const char payload[] = TAB COOKIE;
    return make_event(STEWLATTICE_PROCESS, 1, STEWLATTICE_FROM_PROCESS_RESULT, payload, sizeof payload - 1);
}

static struct event make_document(void) {
    const uint8_t *payload = largest(TAB, sizeof TAB - 1);
    return make_event(STEWLATTICE_NETWORK, 0, STEWLATTICE_FROM_NETWORK_DOCUMENT, payload, STEWLATTICE_PAYLOAD_MOST);
}

static struct event make_tab_event(enum kind kind) {
    static const char socket[] = "\1\273" HOST, url[] = "https://" HOST "/track?container=MSKU1234567";
    switch (kind) {
    case DISPLAY:
        return from_tab(STEWLATTICE_FROM_TAB_DISPLAY, "\0\0\0\7\0\0\0\0\2\200\1\340", 12);
    case SOCKET:
        return from_tab(STEWLATTICE_FROM_TAB_SOCKET, socket, sizeof socket - 1);
    case URL:
        return from_tab(STEWLATTICE_FROM_TAB_URL, url, sizeof url - 1);
    case STORE:
        return make_store();
    default:
        return from_tab(STEWLATTICE_FROM_TAB_RETRIEVE, HOST, sizeof HOST - 1);
    }
}

/* The event of this kind for a seat with so many tabs. With ten of them, an open is for the suffix of the tenth. */
static struct event make_kind(enum kind kind, unsigned tabs) {
    switch (kind) {
    case KEY:
        return from_seat(STEWLATTICE_FROM_SEAT_KEY, "k", 1);
    case SELECT:
        return from_seat(STEWLATTICE_FROM_SEAT_KEY, (uint8_t[]){14}, 1);
    case CLOSE:
        return from_seat(STEWLATTICE_FROM_SEAT_KEY, (uint8_t[]){25}, 1);
    case MOUSE:
        return from_seat(STEWLATTICE_FROM_SEAT_MOUSE, "\1\0\2\0", 4);
    case OPEN:
        return make_open(1, tabs < STEWLATTICE_SLOTS ? tabs + 1 : tabs);
    case JOIN:
        return make_open(1, 1);
    case RESULT:
        return make_result();
    case DOCUMENT:
        return make_document();
    default:
        return make_tab_event(kind);
    }
}

#endif
