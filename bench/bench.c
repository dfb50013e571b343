/* Times and counts what a step costs each of three kernels, on the same events and tables, in the same memory.
 *   bench time     prints for each measure, a tab apart: its number, the part of the page it is for, work, live tabs,
 *                  processes, listed names, and the nanoseconds of each kernel
 *   bench count    under callgrind: a dump for each measure and kernel, whose title is the measure's number, the kernel
 *                  and the rounds that were counted
 * A round is the work done once. Every round of a measure begins with the same desk, which is put back outside what is
 * timed and counted. The three must agree on what comes of a round before it is measured, and are held to it after. */
#define _POSIX_C_SOURCE 199309L
#include "works.h"
#include <time.h>
#include <valgrind/callgrind.h>

enum { REPETITIONS = 100, ROUNDS = 20, USUAL_TABS = 2, USUAL_NAMES = 100 };

/* What is measured now: the desk before a round and after it, and the events of a round. */
static struct {
    struct desk before, after;
    struct event event[2];
    unsigned events;
} now;

static unsigned measures;
static bool counting;
static double clock_time;

/* The nanoseconds of one round, with those of reading the clock. */
static double run_round(unsigned k) {
    struct timespec from, to;
    lent = now.before;
    clock_gettime(CLOCK_MONOTONIC, &from);
    for (unsigned e = 0; e < now.events; e++)
        step(k, &now.event[e]);
    clock_gettime(CLOCK_MONOTONIC, &to);
    return (double)(to.tv_sec - from.tv_sec) * 1e9 + (double)(to.tv_nsec - from.tv_nsec);
}

/* The fastest of some rounds. */
static double run_rounds(unsigned k) {
    double best = run_round(k);
    for (unsigned i = 1; i < ROUNDS; i++) {
        double spent = run_round(k);
        best = spent < best ? spent : best;
    }
    require_desk(k, &now.after);
    return best;
}

/* The fastest of all rounds, for each kernel; they take turns at being first. */
static void time_rounds(double best[KERNELS]) {
    for (unsigned r = 0; r < REPETITIONS; r++)
        for (unsigned turn = 0; turn < KERNELS; turn++) {
            unsigned k = (r + turn) % KERNELS;
            double spent = run_rounds(k);
            if (r == 0 || spent < best[k])
                best[k] = spent;
        }
}

/* Before the first measure a round has no event: what is left is reading the clock. */
static double time_clock(void) {
    double best[KERNELS];
    time_rounds(best);
    return best[0];
}

static void count_rounds(void) {
    for (unsigned k = 0; k < KERNELS; k++) {
        char title[64];
        snprintf(title, sizeof title, "%u %s %d", measures, kernels[k].name, ROUNDS);
        CALLGRIND_ZERO_STATS;
        run_rounds(k);
        CALLGRIND_DUMP_STATS_AT(title);
    }
}

static void prepare(const struct work *work, unsigned tabs, unsigned names) {
    write_book(names);
    now.before = make_desk(tabs);
    if (work->before != NONE) {
        struct event event = make_kind(work->before, tabs);
        bring_on(&now.before, &event);
    }
    now.after = now.before;
    now.events = 0;
    for (unsigned m = 0; m < 2 && work->measured[m] != NONE; m++) {
        struct event *event = &now.event[now.events++];
        *event = make_kind(work->measured[m], tabs);
        bring_on(&now.after, event);
    }
}

/* The last process number is the number of processes, since no event before a round stops one. */
static unsigned processes(void) { return stewlattice_get(now.before.table + sizeof now.before.table - 4, 4); }

static void measure(const char *part, const struct work *work, unsigned tabs, unsigned names) {
    measures++;
    prepare(work, tabs, names);
    if (counting) {
        count_rounds();
        return;
    }
    double best[KERNELS];
    time_rounds(best);
    printf("%u\t%s\t%s\t%u\t%u\t%u", measures, part, work->name, tabs * STEWLATTICE_SEATS, processes(), names);
    for (unsigned k = 0; k < KERNELS; k++)
        printf("\t%.0f", best[k] - clock_time);
    putchar('\n');
}

static void measure_tabs(void) {
    static const unsigned tabs[] = {0, 1, 2, 5, 10};
    enum { LEVELS = sizeof tabs / sizeof tabs[0] };
    for (size_t i = 0; i < LEVELS; i++)
        measure("tabs", &key_alone, tabs[i], USUAL_NAMES);
    for (size_t i = 1; i < LEVELS; i++)
        measure("tabs", &retrieve_result, tabs[i], USUAL_NAMES);
    for (size_t i = 0; i < LEVELS; i++)
        measure("tabs", tabs[i] < STEWLATTICE_SLOTS ? &open_close : &close_open, tabs[i], USUAL_NAMES);
}

int main(int argc, char **argv) {
    static const unsigned names[] = {10, 100, 1000, 3000};
    require(argc == 2 && (strcmp(argv[1], "time") == 0 || strcmp(argv[1], "count") == 0), "usage", "bench time|count");
    counting = strcmp(argv[1], "count") == 0;
    clock_time = time_clock();
    for (size_t i = 0; i < sizeof kinds / sizeof kinds[0]; i++)
        measure("kinds", &kinds[i], USUAL_TABS, USUAL_NAMES);
    measure_tabs();
    for (size_t i = 0; i < sizeof names / sizeof names[0]; i++)
        measure("names", &open_alone, USUAL_TABS, names[i]);
    return EXIT_SUCCESS;
}
