/* The form of an input: records end to end, each a kind (1 byte), a length (2, big-endian) and so many bytes. The last
 * may be cut short. The kind is taken modulo RECORD_KINDS, so that every input means something. */
#ifndef RECORD_H
#define RECORD_H

#include "stewlattice.h"
#include <stdbool.h>

enum { RECORD_HEAD = 3, RECORD_MOST = 65535 };

enum record_kind {
    RECORD_EVENT, /* step is called with these bytes for an event */
    RECORD_START, /* start is called with these bytes for a book, which is also the book of the steps that follow */
    RECORD_BOOK,  /* these bytes are the book of the steps that follow */
    RECORD_PATCH, /* place (2), then bytes that are laid over the table there */
    RECORD_LEND,  /* how much of the table (2) and of the room (2) the next call is lent */
    RECORD_KINDS
};

struct record {
    enum record_kind kind;
    const uint8_t *bytes;
    size_t len;
};

/* Takes the first record off the data; false if there is none. */
static inline bool next_record(const uint8_t **data, size_t *size, struct record *record) {
    if (*size < RECORD_HEAD)
        return false;
    size_t len = stewlattice_get(*data + 1, 2), left = *size - RECORD_HEAD;
    record->kind = (enum record_kind)((*data)[0] % RECORD_KINDS);
    record->bytes = *data + RECORD_HEAD;
    record->len = len < left ? len : left;
    *data = record->bytes + record->len;
    *size = left - record->len;
    return true;
}

#endif
