/* Stewlattice for the author of a C host: two calls over memory that the host lends (x86-64, System V).
 *
 * The host renders, fetches, stores and runs the processes; the kernel decides. The host lays each event out as a
 * frame, calls stewlattice_step, and does what the actions in the output room say, in their order. RULES.md has the
 * rules: docs/ in the repository, share/doc/stewlattice/ where it is installed; its section 17 is for hosts.
 *
 * Memory: the caller lends everything. The kernel allocates nothing, has no global state, makes no system call and
 * keeps no pointer between calls. Lent buffers need no alignment. What is lent to one call must not overlap. A pointer
 * may be NULL if its length is 0. That each pointer is good for its length is all a host has to see to: every call
 * returns, whatever the bytes and lengths.
 *
 * Table: plain bytes of the host's, which may copy them, save them and lend them again later, at another address.
 * Only start and step should write them; step reads all of them at each call and refuses a table that is unsound.
 *
 * Threads: calls on different tables, with different rooms, may run at once, or one inside another as from a signal
 * handler; two calls on one table or one room may not. A book or an event may be lent to many calls at once while
 * nobody writes it.
 *
 * Refusals: the number is 0 for done, otherwise the first of 1 to 10 that applies. A refused call changes no byte of
 * table and room, and its counts are 0. A tab's request that is denied is no refusal: it is done, with one error action
 * to the tab.
 *
 * Sender: the kernel believes the party and id in an event's head. The host sets both from the channel that the
 * message came by, never from bytes that a tab or process sent.
 *
 * Restart: start begins opens, serials and process numbers again, so ids repeat after a new start. First stop every
 * tab and process of the old table, and drop their messages that are under way.
 */
#ifndef STEWLATTICE_H
#define STEWLATTICE_H

#include <stddef.h>
#include <stdint.h>

/* The version of the header and of the library beside it, for people and for #if. */
#define STEWLATTICE_VERSION "0.7.0"
#define STEWLATTICE_VERSION_MAJOR 0
#define STEWLATTICE_VERSION_MINOR 7
#define STEWLATTICE_VERSION_PATCH 0

#ifdef __cplusplus
extern "C" {
#endif

/* Writes a fresh table: the seats let as the book orders, no tab, no process. The old contents are never read. The
 * answer is 0, or 2 (table_len is not STEWLATTICE_TABLE_SIZE), or 6 (unsound book), in this order; its counts are 0. */
uint64_t stewlattice_start(uint8_t *table, size_t table_len, const uint8_t *book, size_t book_len);

/* Takes one event, brings the table up to date and writes the actions, frame after frame, from the beginning of out.
 * The event is one whole frame: its size must be the count of bytes present after the head, and 4,096 at most. Bytes of
 * the room past those written stay. The book is read for open events only, and only its listed names count: which seats
 * are let, and to whom, is in the table. For other events any book will do, NULL with length 0 too. */
uint64_t stewlattice_step(uint8_t *table, size_t table_len, const uint8_t *book, size_t book_len, const uint8_t *event,
                          size_t event_len, uint8_t *out, size_t out_len);

/* Sizes, in bytes unless another unit is named. */
enum {
    STEWLATTICE_TABLE_SIZE = 6152,
    STEWLATTICE_ROOM_LEAST = 4106,   /* a frame of the largest payload; no step writes more */
    STEWLATTICE_HEAD_SIZE = 10,      /* party (1), id (4), tag (1), size (4), big-endian as all numbers */
    STEWLATTICE_PAYLOAD_MOST = 4096, /* of an event, and of an action */
    STEWLATTICE_BOOK_LEAST = 8,
    STEWLATTICE_BOOK_MOST = 32768,
    STEWLATTICE_NAME_MOST = 253,
    STEWLATTICE_LISTED_MOST = 62, /* a listed name of the book */
    STEWLATTICE_SUFFIX_MOST = 64,
    STEWLATTICE_URL_MOST = 2048,
    STEWLATTICE_SEATS = 8,          /* numbered from 1 */
    STEWLATTICE_SLOTS = 10,         /* tabs live at once on a seat */
    STEWLATTICE_PROCESS_ROWS = 80,  /* processes live at once; an open never lacks one */
    STEWLATTICE_OPENS_MOST = 65535, /* opens of a seat from one start to the next */
    STEWLATTICE_ACTIONS_MOST = 4    /* actions of one step */
};

/* Who sends an event, and whom an action is for. The id is the seat, the tab id or the process's number; an event from
 * the network has id 0, an action to it the id of the tab that asks. */
enum stewlattice_party {
    STEWLATTICE_SEAT = 1,
    STEWLATTICE_TAB = 2,
    STEWLATTICE_PROCESS = 3,
    STEWLATTICE_NETWORK = 4,
    STEWLATTICE_HOST = 5 /* actions only */
};

/* Tags of events, each with its payload. */
enum stewlattice_event {
    STEWLATTICE_FROM_SEAT_KEY = 1,        /* 1 byte: 8, 9, 10, 13, 14 to 23 (F1 to F10), 25 (F12), 32 to 126 */
    STEWLATTICE_FROM_SEAT_MOUSE = 2,      /* x, y (2 each) */
    STEWLATTICE_FROM_SEAT_OPEN = 3,       /* suffix; F11 arrives so */
    STEWLATTICE_FROM_TAB_DISPLAY = 1,     /* memory id (4), x, y, w, h (2 each) */
    STEWLATTICE_FROM_TAB_SOCKET = 2,      /* port (2), host */
    STEWLATTICE_FROM_TAB_URL = 3,         /* URL */
    STEWLATTICE_FROM_TAB_STORE = 4,       /* length (1), domain of that length, cookie */
    STEWLATTICE_FROM_TAB_RETRIEVE = 5,    /* domain */
    STEWLATTICE_FROM_PROCESS_RESULT = 1,  /* tab id (4), cookie */
    STEWLATTICE_FROM_NETWORK_DOCUMENT = 1 /* tab id (4), body */
};

/* Tags of actions, each with its payload. */
enum stewlattice_action {
    STEWLATTICE_TO_SEAT_BAR = 1,           /* suffix or empty */
    STEWLATTICE_TO_SEAT_PAINT = 2,         /* the 12 bytes of the display */
    STEWLATTICE_TO_TAB_GO = 1,             /* suffix */
    STEWLATTICE_TO_TAB_RENDER = 2,         /* empty */
    STEWLATTICE_TO_TAB_KEY = 3,            /* the byte */
    STEWLATTICE_TO_TAB_MOUSE = 4,          /* x, y */
    STEWLATTICE_TO_TAB_ERROR = 5,          /* empty: the request is denied */
    STEWLATTICE_TO_TAB_DOCUMENT = 6,       /* body */
    STEWLATTICE_TO_TAB_COOKIE = 7,         /* cookie */
    STEWLATTICE_TO_PROCESS_SET = 1,        /* the store payload, domain folded */
    STEWLATTICE_TO_PROCESS_GET = 2,        /* tab id, folded domain */
    STEWLATTICE_TO_NETWORK_FETCH = 1,      /* URL */
    STEWLATTICE_TO_HOST_START_TAB = 1,     /* empty; the id is the tab id */
    STEWLATTICE_TO_HOST_STOP_TAB = 2,      /* empty; the id is the tab id */
    STEWLATTICE_TO_HOST_START_PROCESS = 3, /* owner (1), suffix; the id is the number */
    STEWLATTICE_TO_HOST_STOP_PROCESS = 4,  /* empty; the id is the number */
    STEWLATTICE_TO_HOST_OPEN_SOCKET = 5    /* port (2), folded host; the id is the tab id */
};

/* Numbers given back. */
enum stewlattice_numbers {
    STEWLATTICE_DONE = 0,
    STEWLATTICE_SHORT_ROOM = 1,  /* output room below 4,106 bytes */
    STEWLATTICE_BAD_TABLE = 2,   /* table of another length, or unsound */
    STEWLATTICE_BAD_FRAME = 3,   /* short frame, wrong size, unknown party or tag, payload that does not fit its tag */
    STEWLATTICE_NO_SENDER = 4,   /* seat not let, tab or process not live, network id not 0 */
    STEWLATTICE_BAD_KEY = 5,     /* a key code not named; 24 (F11) is one */
    STEWLATTICE_BAD_BOOK = 6,    /* open (and start): unsound book */
    STEWLATTICE_BAD_SUFFIX = 7,  /* open: suffix not acceptable */
    STEWLATTICE_FULL_SEAT = 8,   /* open: ten tabs live */
    STEWLATTICE_SPENT_SEAT = 9,  /* open: opens is 65,535 */
    STEWLATTICE_NOT_AWAITED = 10 /* result or document that no such tab waits for */
};

/* An answer taken apart: the number in bits 0 to 7, the count of actions in bits 8 to 15, the count of bytes written in
 * bits 16 to 31. Bits 32 to 39 are kept for a later use and the rest is 0: never compare a whole answer. */
static inline enum stewlattice_numbers stewlattice_number(uint64_t answer) {
    return (enum stewlattice_numbers)(answer & 0xff);
}

static inline unsigned stewlattice_actions(uint64_t answer) { return (unsigned)(answer >> 8 & 0xff); }

static inline size_t stewlattice_bytes(uint64_t answer) { return (size_t)(answer >> 16 & 0xffff); }

/* A big-endian number of 1 to 4 bytes, as the fields of heads and payloads are. */
static inline uint32_t stewlattice_get(const uint8_t *from, size_t width) {
    uint32_t value = 0;
    for (size_t i = 0; i < width; i++)
        value = value << 8 | from[i];
    return value;
}

static inline void stewlattice_put(uint8_t *to, size_t width, uint32_t value) {
    for (size_t i = width; i > 0; i--, value >>= 8)
        to[i - 1] = (uint8_t)(value & 0xff);
}

/* The head of a frame; the payload of that size follows it. */
struct stewlattice_head {
    uint8_t party;
    uint32_t id;
    uint8_t tag;
    uint32_t size;
};

/* Reads STEWLATTICE_HEAD_SIZE bytes. */
static inline struct stewlattice_head stewlattice_get_head(const uint8_t *from) {
    struct stewlattice_head head;
    head.party = from[0];
    head.id = stewlattice_get(from + 1, 4);
    head.tag = from[5];
    head.size = stewlattice_get(from + 6, 4);
    return head;
}

/* Writes STEWLATTICE_HEAD_SIZE bytes. */
static inline void stewlattice_put_head(uint8_t *to, struct stewlattice_head head) {
    to[0] = head.party;
    stewlattice_put(to + 1, 4, head.id);
    to[5] = head.tag;
    stewlattice_put(to + 6, 4, head.size);
}

/* A tab id is made of the seat and of the tab's serial there. */
static inline uint32_t stewlattice_tab_id(uint32_t seat, uint32_t serial) { return seat * 65536 + serial; }

static inline uint32_t stewlattice_tab_seat(uint32_t tab_id) { return tab_id / 65536; }

static inline uint32_t stewlattice_tab_serial(uint32_t tab_id) { return tab_id % 65536; }

#ifdef __cplusplus
}
#endif

#endif
