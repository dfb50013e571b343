/* The host's children: each tab, each cookie process and the network is a program with a channel to the host. Nothing
 * here calls the kernel.
 *
 * A child is not trusted, and none can make the host wait. One that ends by itself, sends nonsense or takes no messages
 * is lost: its program is ended, and its row says why and stays until the child is stopped; what is sent to it
 * meanwhile is dropped. */
#ifndef CHILDREN_H
#define CHILDREN_H

#include "program.h"

struct child {
    uint8_t party; /* STEWLATTICE_TAB, STEWLATTICE_PROCESS or STEWLATTICE_NETWORK; 0 for a free row */
    uint32_t id;   /* the tab id, the process's number, or 0 */
    struct program program;
    int64_t deadline; /* of a child that was told to end, when that is made sure of; otherwise 0 */
    bool is_lost;
    char why[96]; /* it is lost */
};

/* All tabs and processes that a table can hold, the network, and as many again that are about to end. */
enum { CHILDREN_MOST = 2 * (STEWLATTICE_SEATS * STEWLATTICE_SLOTS + STEWLATTICE_PROCESS_ROWS + 1) };

struct children {
    const char *directory; /* where the programs are */
    int patience;          /* milliseconds that a child has to end when it is told to */
    unsigned forced;       /* children that did not, or did not end well */
    size_t turn;           /* the row that is heard first next time */
    struct child rows[CHILDREN_MOST];
};

/* A clock for deadlines, in milliseconds. */
int64_t children_clock(void);

/* Starts a program of the directory. If that fails, the child is there all the same, and lost. */
void children_start(struct children *children, uint8_t party, uint32_t id, const char *program);

/* The child with this party and id, or NULL. One that was told to end has none any more. */
struct child *children_find(struct children *children, uint8_t party, uint32_t id);

/* A child that is lost, or NULL. */
struct child *children_lost(struct children *children);

/* Waits for a message, at most until the deadline. Gives the child that sent it; or NULL, which may be before the
 * deadline, if a child is lost instead, say. Children are heard in turn, so that a talkative one does not keep the
 * others waiting. */
struct child *children_receive(struct children *children, int64_t deadline, struct message *message);

/* Sends a message, without waiting: a child that leaves its messages lying until no more fit is lost. */
void child_send(struct child *child, uint8_t tag, const void *payload, size_t size);

/* Gives a child up. The first reason stays. */
void child_lose(struct child *child, const char *why);

/* Tells a child to end, by the end of its channel, and forgets its id; what it still sends is dropped. */
void children_stop(struct children *children, struct child *child);

/* Stops every child, and waits until all have ended. True if no program of ours is left, running or to be reaped. */
bool children_end(struct children *children);

#endif
