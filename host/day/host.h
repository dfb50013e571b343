/* The host: it lends the kernel its memory, gives it the events and does what the actions say.
 *
 *   host.c      events: from a seat or a child to the kernel
 *   actions.c   actions: from the kernel to desks and children
 *   lost.c      what becomes of a child that is lost
 *
 * An event bears the party and id of the channel that it came by. A message that does not fit its tag (refused 3) is
 * as bad as a malformed one: the child is lost. Every other refusal is reported and leaves all as it was; a result for
 * a tab that was closed meanwhile is one, so it is no proof of ill will. */
#ifndef HOST_H
#define HOST_H

#include "children.h"
#include "desk.h"

/* Keys that mean something to host or kernel; F2 to F10 are between. */
enum { KEY_ENTER = 13, KEY_F1 = 14, KEY_F12 = 25 };

struct host {
    const uint8_t *book;
    size_t book_len;
    uint8_t table[STEWLATTICE_TABLE_SIZE];
    uint8_t room[STEWLATTICE_ROOM_LEAST];
    struct children children;
    struct desk desks[STEWLATTICE_SEATS + 1]; /* by seat, from 1 */
    uint32_t sender;                          /* the id of the event that is dealt with */
    uint8_t lying_seat, lying_owner;          /* whose tabs, and whose processes, are lying programs; 0 for nobody's */
    unsigned gets, losses;                    /* requests passed on to a process; children lost */
    bool is_over;                             /* the host cannot go on */
};

/* Starts a table from the book, and the network. False if the book is refused. */
bool host_begin(struct host *host, const uint8_t *book, size_t book_len, const char *directory, int patience);

/* Gives the kernel one event and performs its actions. Gives the number; a refusal is reported. */
enum stewlattice_numbers host_deliver(struct host *host, uint8_t party, uint32_t id, uint8_t tag, const void *payload,
                                      size_t size);

enum stewlattice_numbers host_open(struct host *host, uint32_t seat, const char *suffix);

enum stewlattice_numbers host_press(struct host *host, uint32_t seat, uint8_t key);

/* Deals with one lost child or one message, for which it waits until the deadline at most. */
void host_turn(struct host *host, int64_t deadline);

/* Reports the children that are lost and not dealt with yet, and stops all others. True if no program is left. */
bool host_end(struct host *host);

/* Performs one action. */
void host_perform(struct host *host, struct stewlattice_head head, const uint8_t *payload);

/* Reports a child that is lost, and takes it out of the kernel's table. */
void host_clear(struct host *host, struct child *child);

/* A party in a word. */
const char *host_party(uint8_t party);

#endif
