/* The host's children; see children.h. */
#define _POSIX_C_SOURCE 200809L
#include "children.h"
#include <errno.h>
#include <poll.h>
#include <stdio.h>
#include <string.h>
#include <sys/socket.h>
#include <sys/wait.h>
#include <time.h>

enum {
    ENDING = 255,       /* in the place of the party, for a child that was told to end */
    SWEEP_INTERVAL = 20 /* milliseconds after which to see again whether it has */
};

int64_t children_clock(void) {
    struct timespec now;
    clock_gettime(CLOCK_MONOTONIC, &now);
    return (int64_t)now.tv_sec * 1000 + now.tv_nsec / 1000000;
}

struct child *children_find(struct children *children, uint8_t party, uint32_t id) {
    for (size_t i = 0; i < CHILDREN_MOST; i++)
        if (children->rows[i].party == party && children->rows[i].id == id)
            return &children->rows[i];
    return NULL;
}

struct child *children_lost(struct children *children) {
    for (size_t i = 0; i < CHILDREN_MOST; i++)
        if (children->rows[i].is_lost)
            return &children->rows[i];
    return NULL;
}

/* Frees the rows of children that were told to end and did, or whose time is over. True if some are still at it. */
static bool sweep(struct children *children) {
    bool some_left = false;
    for (size_t i = 0; i < CHILDREN_MOST; i++) {
        struct child *child = &children->rows[i];
        int status;
        if (child->party != ENDING)
            continue;
        if (!program_has_ended(&child->program, &status)) {
            if (children_clock() < child->deadline) {
                some_left = true;
                continue;
            }
            status = program_end(&child->program);
        }
        if (status != 0)
            children->forced++;
        *child = (struct child){0};
    }
    return some_left;
}

/* A free row. If all are taken, those who were told to end must do so now: the kernel's table fills half the rows. */
static struct child *make_row(struct children *children) {
    if (children_find(children, 0, 0) == NULL) {
        for (size_t i = 0; i < CHILDREN_MOST; i++)
            children->rows[i].deadline = 0;
        sweep(children);
    }
    return children_find(children, 0, 0);
}

void children_start(struct children *children, uint8_t party, uint32_t id, const char *program) {
    struct child *child = make_row(children);
    char path[4096], why[80];
    int error = ENAMETOOLONG;
    *child = (struct child){.party = party, .id = id, .program = {.channel = -1, .page = -1}};
    if ((size_t)snprintf(path, sizeof path, "%s/%s", children->directory, program) < sizeof path)
        error = program_start(&child->program, path, party == STEWLATTICE_TAB);
    if (error != 0) {
        snprintf(why, sizeof why, "it cannot be started: %s", strerror(error));
        child_lose(child, why);
    }
}

void child_lose(struct child *child, const char *why) {
    if (child->is_lost)
        return;
    child->is_lost = true;
    snprintf(child->why, sizeof child->why, "%s", why);
    program_end(&child->program);
}

/* The channel is at its end: the child has ended, or has hung up and shall. */
static void lose_ended(struct child *child) {
    char why[80];
    int status = program_end(&child->program);
    if (WIFSIGNALED(status))
        snprintf(why, sizeof why, "it was ended by signal %d", WTERMSIG(status));
    else
        snprintf(why, sizeof why, "it ended with status %d", WEXITSTATUS(status));
    child_lose(child, why);
}

void child_send(struct child *child, uint8_t tag, const void *payload, size_t size) {
    if (child->is_lost || wire_send(child->program.channel, MSG_DONTWAIT, tag, payload, size))
        return;
    if (errno == EPIPE || errno == ECONNRESET)
        lose_ended(child);
    else
        child_lose(child, "it takes no messages");
}

/* Waits until a child has something to say. Gives its row, or NULL if the deadline came first. */
static struct child *wait_for(struct children *children, int64_t deadline) {
    struct pollfd polled[CHILDREN_MOST];
    for (size_t i = 0; i < CHILDREN_MOST; i++) {
        struct child *child = &children->rows[(children->turn + i) % CHILDREN_MOST];
        bool is_heard = child->party != 0 && child->party != ENDING && !child->is_lost;
        polled[i] = (struct pollfd){.fd = is_heard ? child->program.channel : -1, .events = POLLIN};
    }
    int64_t left = deadline - children_clock();
    if (poll(polled, CHILDREN_MOST, left > 0 ? (int)left : 0) <= 0)
        return NULL;
    size_t first = 0;
    while (polled[first].revents == 0)
        first++;
    struct child *child = &children->rows[(children->turn + first) % CHILDREN_MOST];
    children->turn = (children->turn + first + 1) % CHILDREN_MOST;
    return child;
}

struct child *children_receive(struct children *children, int64_t deadline, struct message *message) {
    int64_t soon = children_clock() + SWEEP_INTERVAL;
    bool some_end = sweep(children);
    struct child *child = wait_for(children, some_end && soon < deadline ? soon : deadline);
    if (child == NULL)
        return NULL;
    switch (wire_receive(child->program.channel, MSG_DONTWAIT, message)) {
    case WIRE_MESSAGE:
        return child;
    case WIRE_NONSENSE:
        child_lose(child, "it sent a malformed message");
        return NULL;
    default:
        lose_ended(child);
        return NULL;
    }
}

void children_stop(struct children *children, struct child *child) {
    if (child->is_lost) {
        *child = (struct child){0};
        return;
    }
    shutdown(child->program.channel, SHUT_WR);
    *child = (struct child){.party = ENDING, .program = child->program};
    child->deadline = children_clock() + children->patience;
}

bool children_end(struct children *children) {
    for (size_t i = 0; i < CHILDREN_MOST; i++)
        if (children->rows[i].party != 0 && children->rows[i].party != ENDING)
            children_stop(children, &children->rows[i]);
    while (sweep(children))
        poll(NULL, 0, SWEEP_INTERVAL);
    return waitpid(-1, NULL, WNOHANG) < 0 && errno == ECHILD;
}
