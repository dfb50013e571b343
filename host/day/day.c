/* A host to start from: it runs tabs, cookie processes and the network as real programs, and plays the freight
 * forwarder's day with them, a step at a time. Its last lines say whether what the kernel promises was seen to hold.
 *
 *   day [--tab-dies | --process-dies | --child-lies] [--patience SECONDS] [DIRECTORY]
 *
 * The programs are in DIRECTORY, or else beside this one. A step that is not answered in SECONDS (10 unless given)
 * ends the day. Status: 0 for a good day; 1 if it could not be played to its end or a claim fails; 2 for wrong usage;
 * 3 if it was played to its end, but children were lost on the way.
 *
 * In a host of your own, host.c, actions.c, lost.c, children.c, program.c and wire.c are what stays; desk.c becomes the
 * real screens, and this file and the script the real keyboards. */
#define _POSIX_C_SOURCE 200809L
#include "host.h"
#include "script.h"
#include <inttypes.h>
#include <signal.h>
#include <stdio.h>
#include <stdlib.h>
#include <string.h>
#include <sys/wait.h>

enum { DAY_GOOD = 0, DAY_FAILED = 1, DAY_USAGE = 2, DAY_LOSSES = 3 };

/* Every key of a line, then enter. */
static enum stewlattice_numbers type(struct host *host, uint32_t seat, const char *line) {
    enum stewlattice_numbers number = STEWLATTICE_DONE;
    while (number == STEWLATTICE_DONE && *line != '\0')
        number = host_press(host, seat, (uint8_t)*line++);
    return number == STEWLATTICE_DONE ? host_press(host, seat, KEY_ENTER) : number;
}

/* A key, more often than a tab can leave it lying. */
static enum stewlattice_numbers lean(struct host *host, uint32_t seat, uint8_t key) {
    enum stewlattice_numbers number = STEWLATTICE_DONE;
    for (int i = 0; i < 1000 && number == STEWLATTICE_DONE; i++)
        number = host_press(host, seat, key);
    return number;
}

/* Sends a child a signal, past the host and the kernel. One that is killed is dead at once, not some time later. */
static enum stewlattice_numbers send_signal(struct host *host, uint8_t party, uint32_t id, int number) {
    struct child *child = children_find(&host->children, party, id);
    siginfo_t dead;
    if (child == NULL || child->is_lost || kill(child->program.pid, number) != 0)
        return STEWLATTICE_NO_SENDER;
    if (number == SIGKILL)
        waitid(P_PID, (id_t)child->program.pid, &dead, WEXITED | WNOWAIT);
    return STEWLATTICE_DONE;
}

/* Does what a step says; gives the kernel's number. */
static enum stewlattice_numbers act(struct host *host, const struct step *step) {
    switch (step->act) {
    case OPENS:
        printf("seat %" PRIu32 " opens %s\n", step->id, step->text);
        return host_open(host, step->id, step->text);
    case TYPES:
        printf("seat %" PRIu32 " types: %s\n", step->id, step->text);
        return type(host, step->id, step->text);
    case LEANS:
        printf("seat %" PRIu32 " leans on %s\n", step->id, step->text);
        return lean(host, step->id, (uint8_t)step->text[0]);
    case PRESSES:
        printf("seat %" PRIu32 " presses %s\n", step->id, step->text);
        return host_press(host, step->id, (uint8_t)(KEY_F1 + atoi(step->text + 1) - 1));
    case HOLD:
        printf("process %" PRIu32 " is slow\n", step->id);
        return send_signal(host, STEWLATTICE_PROCESS, step->id, SIGSTOP);
    case LET_ON:
        printf("process %" PRIu32 " goes on\n", step->id);
        return send_signal(host, STEWLATTICE_PROCESS, step->id, SIGCONT);
    case KILL_TAB:
        return send_signal(host, STEWLATTICE_TAB, step->id, SIGKILL);
    case KILL_PROCESS:
        return send_signal(host, STEWLATTICE_PROCESS, step->id, SIGKILL);
    default:
        return STEWLATTICE_DONE;
    }
}

/* How often that has happened which a step waits for. */
static unsigned count(const struct host *host, const struct step *step) {
    switch (step->until) {
    case SCREEN:
        return host->desks[step->id].paints;
    case GET:
        return host->gets;
    case LOSS:
        return host->losses;
    default:
        return 0;
    }
}

/* Why the day cannot go on while a step is played, or NULL. */
static const char *obstacle(const struct host *host, const struct step *step, enum stewlattice_numbers number,
                            unsigned losses) {
    if ((number != STEWLATTICE_DONE) != (step->until == REFUSED))
        return step->until == REFUSED ? "that was not refused" : "that was refused";
    if (host->is_over)
        return "the host cannot go on";
    if (step->until != LOSS && host->losses != losses)
        return "a child is lost";
    return NULL;
}

/* Plays a step. False, with a line that says why, if the day cannot go on. */
static bool play(struct host *host, const struct step *step) {
    unsigned before = count(host, step), losses = host->losses;
    int64_t deadline = children_clock() + host->children.patience;
    enum stewlattice_numbers number = act(host, step);
    const char *why = obstacle(host, step, number, losses);
    while (why == NULL && step->until > REFUSED && count(host, step) == before) {
        host_turn(host, deadline);
        why = obstacle(host, step, number, losses);
        if (why == NULL && count(host, step) == before && children_clock() >= deadline)
            why = "no answer came in time";
    }
    if (why != NULL)
        printf("the day ends here: %s\n", why);
    return why == NULL;
}

static bool judge(const struct host *host, const struct claim *claim) {
    const struct desk *desk = &host->desks[claim->seat];
    bool holds = desk->paints <= SHOWN_MOST && desk_saw(desk, claim->saw) && !desk_saw(desk, claim->never);
    printf("%s: %s\n", holds ? "holds" : "FAILS", claim->text);
    return holds;
}

/* Plays a day and ends the host, however far it came. Gives the status. */
static int play_day(struct host *host, const struct day *day, const char *directory, int patience) {
    puts(day->title);
    host->lying_seat = day->lying_seat;
    host->lying_owner = day->lying_owner;
    bool is_good = host_begin(host, script_book, script_book_len, directory, patience);
    for (const struct step *step = day->steps; is_good && step->act != END; step++)
        is_good = play(host, step);
    bool is_whole = is_good;
    for (const struct claim *claim = day->claims; is_whole && claim->seat != 0; claim++)
        is_good &= judge(host, claim);
    bool is_empty = host_end(host);
    printf("children: %u lost, %u ended by force, %s\n", host->losses, host->children.forced,
           is_empty ? "none left" : "SOME LEFT");
    if (!is_good || !is_empty || host->children.forced > 0)
        return DAY_FAILED;
    return host->losses > 0 ? DAY_LOSSES : DAY_GOOD;
}

/* The directory of a path, which is cut off there. */
static const char *directory_of(char *path) {
    char *slash = strrchr(path, '/');
    if (slash == NULL)
        return ".";
    *slash = '\0';
    return path;
}

/* A number of seconds from 1 to 3600, or 0 if it is no such number. */
static int seconds_of(const char *text) {
    char *rest;
    long seconds = strtol(text, &rest, 10);
    return *rest == '\0' && seconds >= 1 && seconds <= 3600 ? (int)seconds : 0;
}

/* The day with this option, or NULL. */
static const struct day *day_of(const char *option) {
    for (const struct day *day = days; day->option != NULL; day++)
        if (strcmp(day->option, option) == 0)
            return day;
    return NULL;
}

int main(int argument_count, char **arguments) {
    static struct host host;
    const struct day *day = days;
    const char *directory = NULL;
    int patience = 10;
    for (int i = 1; i < argument_count; i++) {
        if (day_of(arguments[i]) != NULL) {
            day = day_of(arguments[i]);
        } else if (strcmp(arguments[i], "--patience") == 0 && i + 1 < argument_count && seconds_of(arguments[i + 1])) {
            patience = seconds_of(arguments[++i]);
        } else if (arguments[i][0] != '-' && directory == NULL) {
            directory = arguments[i];
        } else {
            fputs("usage: day [--tab-dies | --process-dies | --child-lies] [--patience SECONDS] [DIRECTORY]\n", stderr);
            return DAY_USAGE;
        }
    }
    signal(SIGPIPE, SIG_IGN); /* if nobody reads the lines, the day is played all the same, and fails in the end */
    setvbuf(stdout, NULL, _IOLBF, 0);
    int status = play_day(&host, day, directory != NULL ? directory : directory_of(arguments[0]), patience * 1000);
    return fflush(stdout) != 0 || ferror(stdout) ? DAY_FAILED : status;
}
