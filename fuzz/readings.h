/* The readings of document 01 that are played against each other, and what one call lends to each of them. */
#ifndef READINGS_H
#define READINGS_H

#include "stewlattice.h"
#include <stdbool.h>

struct bytes {
    uint8_t *at;
    size_t len;
};

enum { TABLE, BOOK, EVENT, ROOM, LENT };

/* One call of step, or of start, which is lent no event and no room. What is lent may adjoin. */
struct call {
    bool starts, adjoins;
    struct bytes lent[LENT];
};

/* Plays the call with every reading, each on its own copy of what is lent. Table and room are then as the kernel left
 * them. If another reading answered or left anything else, says what differs and does not return. */
uint64_t play(const struct call *call);

#endif
