/* The days as tables: who does what at which desk, what is waited for, and what is claimed in the end. */
#ifndef SCRIPT_H
#define SCRIPT_H

#include <stdint.h>

enum act {
    OPENS,   /* a seat types a suffix after F11 */
    TYPES,   /* a seat types a line, with the enter key */
    PRESSES, /* a seat presses an F key */
    LEANS,   /* a seat leans on a key, so that it repeats */
    LOOKS,   /* a seat does nothing but wait */
    HOLD,    /* a process is held, as if it were slow .. */
    LET_ON,  /* .. and let on */
    KILL_TAB,
    KILL_PROCESS,
    END
};

/* What a step waits for before the next one: the answers have come then, so the printed lines have one order. */
enum until {
    AT_ONCE,
    REFUSED, /* at once, too */
    SCREEN,  /* the seat's is painted */
    GET,     /* one is passed on to a process */
    LOSS     /* a child is lost */
};

struct step {
    enum act act;
    uint32_t id; /* the seat, the process's number or the tab id */
    const char *text;
    enum until until;
};

/* What a seat has seen on its screen in the end, and what never. */
struct claim {
    uint32_t seat; /* 0 after the last */
    const char *saw, *never;
    const char *text;
};

struct day {
    const char *option; /* NULL after the last */
    const char *title;
    const struct step *steps;
    const struct claim *claims;
    uint8_t lying_seat, lying_owner;
};

extern const struct day days[];

/* The order book: tenant 7 is the freight forwarder, and its seat 1 is separate; seat 4 is another tenant's. */
extern const uint8_t script_book[];
extern const uint32_t script_book_len;

#endif
