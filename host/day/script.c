/* The days; see script.h. Ids follow from document 01: a seat's tabs are numbered by their opens, processes by their
 * starts. */
#include "script.h"
#include "stewlattice.h"
#include <stddef.h>

const uint8_t script_book[] = {
    1, 7,   1,                    /* seat 1, tenant 7, options 1: separate */
    2, 7,   0,                    /* seat 2, tenant 7 */
    3, 7,   0,                    /* seat 3, tenant 7 */
    4, 8,   0,                    /* seat 4, tenant 8 */
    3, 'c', 'o', 'm',             /* one listed name */
    0, 0,   4,   0,   0, 12, 0, 1 /* orders at 0, four of them, zero, names at 12, one of them */
};
const uint32_t script_book_len = sizeof script_book;

static const struct step good[] = {
    {OPENS, 1, "carrier.com", SCREEN},
    {TYPES, 1, "in hamburg", SCREEN},
    {OPENS, 2, "Carrier.com", SCREEN},
    {TYPES, 2, "in rotterdam", SCREEN},
    {TYPES, 1, "who", SCREEN},
    {TYPES, 2, "who", SCREEN},
    {OPENS, 3, "carrier.com", SCREEN},
    {TYPES, 3, "who", SCREEN},
    /* what is refused, denied and allowed */
    {OPENS, 3, "portal.carrier.com", REFUSED},
    {TYPES, 3, "ask portal.rival.com", SCREEN},
    {TYPES, 3, "call track.carrier.com", SCREEN},
    /* a second tab, and back to the first */
    {OPENS, 1, "harbour.com", SCREEN},
    {PRESSES, 1, "F1", SCREEN},
    /* while seat 2 waits for its cookie, the process of another tenant answers */
    {OPENS, 4, "carrier.com", SCREEN},
    {HOLD, 2, NULL, AT_ONCE},
    {TYPES, 2, "who", GET},
    {TYPES, 4, "who", SCREEN},
    {LET_ON, 2, NULL, AT_ONCE},
    {LOOKS, 2, NULL, SCREEN},
    /* the desks are left; the last tab takes its process along */
    {PRESSES, 2, "F12", AT_ONCE},
    {PRESSES, 3, "F12", AT_ONCE},
    {PRESSES, 4, "F12", AT_ONCE},
    {PRESSES, 1, "F12", AT_ONCE},
    {PRESSES, 1, "F2", SCREEN},
    {PRESSES, 1, "F12", AT_ONCE},
    {END, 0, NULL, AT_ONCE},
};
static const struct claim good_claims[] = {
    {1, "as hamburg", "rotterdam", "seat 1, separate, saw its own cookie and never that of seat 2"},
    {2, "as rotterdam", "hamburg", "seat 2 saw its own cookie and never that of seat 1"},
    {2, "as rotterdam", "forged", "seat 2 never saw what the process of seat 4 forged"},
    {3, "as rotterdam", "hamburg", "seat 3, which shares with seat 2, saw the cookie of seat 2"},
    {0, NULL, NULL, NULL},
};

static const struct step tab_dies[] = {
    {OPENS, 2, "carrier.com", SCREEN},
    {TYPES, 2, "in rotterdam", SCREEN},
    {OPENS, 3, "carrier.com", SCREEN},
    {OPENS, 3, "harbour.com", SCREEN},
    {PRESSES, 3, "F1", SCREEN},
    /* a tab in the background: the one in front is selected again */
    {KILL_TAB, 3 * 65536 + 2, NULL, LOSS},
    {LOOKS, 3, NULL, SCREEN},
    /* the tab in front, before the host notices: its process lives on, since seat 3 is there */
    {KILL_TAB, 2 * 65536 + 1, NULL, AT_ONCE},
    {TYPES, 2, "who", LOSS},
    {TYPES, 2, "who", AT_ONCE},
    {OPENS, 2, "carrier.com", SCREEN},
    {TYPES, 2, "who", SCREEN},
    {TYPES, 3, "who", SCREEN},
    {END, 0, NULL, AT_ONCE},
};
static const struct claim tab_dies_claims[] = {
    {2, "as rotterdam", "nobody", "seat 2 found its cookie again in a new tab"},
    {3, "as rotterdam", "nobody", "seat 3 was not disturbed"},
    {0, NULL, NULL, NULL},
};

static const struct step process_dies[] = {
    {OPENS, 1, "carrier.com", SCREEN},
    {TYPES, 1, "in hamburg", SCREEN},
    {OPENS, 2, "carrier.com", SCREEN},
    {TYPES, 2, "in rotterdam", SCREEN},
    {OPENS, 3, "carrier.com", SCREEN},
    {OPENS, 3, "harbour.com", SCREEN},
    /* in the middle of a request */
    {HOLD, 2, NULL, AT_ONCE},
    {TYPES, 2, "who", GET},
    {KILL_PROCESS, 2, NULL, LOSS},
    {LOOKS, 3, NULL, SCREEN},
    {OPENS, 2, "carrier.com", SCREEN},
    {TYPES, 2, "who", SCREEN},
    {TYPES, 1, "who", SCREEN},
    {END, 0, NULL, AT_ONCE},
};
static const struct claim process_dies_claims[] = {
    {1, "as hamburg", "nobody", "seat 1, separate, was not disturbed"},
    {2, "as nobody", "as rotterdam", "seat 2 has to sign in anew"},
    {0, NULL, NULL, NULL},
};

static const struct step child_lies[] = {
    {OPENS, 1, "carrier.com", SCREEN},
    {TYPES, 1, "in hamburg", SCREEN},
    {OPENS, 2, "sender.com", LOSS},  /* a whole frame, as from process 1 */
    {OPENS, 2, "longer.com", LOSS},  /* a size beyond the bytes present */
    {OPENS, 2, "shorter.com", LOSS}, /* a size below them */
    {OPENS, 2, "huge.com", LOSS},    /* a size that is true and too much */
    {OPENS, 2, "short.com", LOSS},   /* less than a head */
    {OPENS, 2, "memory.com", LOSS},  /* a display of another memory */
    {OPENS, 2, "window.com", LOSS},  /* a display beyond the page */
    {OPENS, 2, "tag.com", LOSS},     /* a tag that no tab has */
    {OPENS, 2, "deaf.com", AT_ONCE}, /* nothing, but its messages are left lying */
    {LEANS, 2, "x", LOSS},
    {OPENS, 4, "carrier.com", SCREEN},
    {TYPES, 4, "ask pose.carrier.com", LOSS}, /* a process's frame, as from process 1 */
    {TYPES, 1, "who", SCREEN},
    {END, 0, NULL, AT_ONCE},
};
static const struct claim child_lies_claims[] = {
    {1, "as hamburg", "forged", "seat 1 saw its own cookie and nothing forged"},
    {0, NULL, NULL, NULL},
};

const struct day days[] = {
    {"", "the freight forwarder's day", good, good_claims, 0, 8},
    {"--tab-dies", "a bad day: tabs die", tab_dies, tab_dies_claims, 0, 0},
    {"--process-dies", "a bad day: a cookie process dies", process_dies, process_dies_claims, 0, 0},
    {"--child-lies", "a bad day: tabs and a cookie process lie", child_lies, child_lies_claims, 2, 8},
    {NULL, NULL, NULL, NULL, 0, 0},
};
