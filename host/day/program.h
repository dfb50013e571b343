/* A program that runs as a child of ours, on Linux: brought up with its channel and its page, and ended.
 *
 * It inherits these two and standard error, no other descriptor and no environment. A real host also confines it (a
 * user of its own, no files, no network, no sight of other programs): programs of one user can read each other's
 * memory, and no rule of the kernel's reaches there. */
#ifndef PROGRAM_H
#define PROGRAM_H

#include "wire.h"
#include <sys/types.h>

struct program {
    pid_t pid; /* 0 if none runs */
    int channel;
    int page; /* -1 if it has none */
};

/* Sees to it that descriptors 0 to 2 are taken, so that no channel gets a number that is printed to or put in place. */
void program_prepare(void);

/* Runs the program of that path. Gives 0, or an error number and no program. How much can lie on a channel unread is
 * limited. */
int program_start(struct program *program, const char *path, bool has_page);

/* Has the program ended by itself? If so, it is reaped, what it had is closed, and its status given as wait() does. */
bool program_has_ended(struct program *program, int *status);

/* Ends the program by force, reaps it and closes what it had. Gives its status: that of its own end if it was at that
 * already. */
int program_end(struct program *program);

#endif
