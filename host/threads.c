/* Several threads at once, each with a table and a room of its own, all lent the same book and the same events: each must
 * get what one thread alone gets, answer by answer, and leave the same table and room. Assumes POSIX threads. */
#define _POSIX_C_SOURCE 200809L
#include "stewlattice.h"
#include <pthread.h>
#include <stdbool.h>
#include <stdio.h>
#include <stdlib.h>
#include <string.h>

enum { THREADS = 8, EVENTS = 7 };

static const uint8_t book[] = {1, 7, 1, 2, 7, 0, 3, 'c', 'o', 'm', 0, 0, 2, 0, 0, 6, 0, 1};

/* A day of two desks that ends as it began but for serials and numbers. */
static const struct event {
    uint8_t bytes[32];
    size_t len;
} events[EVENTS] = {
    {{1, 0, 0, 0, 1, 3, 0, 0, 0, 5, 'a', '.', 'c', 'o', 'm'}, 15},
    {{1, 0, 0, 0, 2, 3, 0, 0, 0, 5, 'A', '.', 'c', 'o', 'm'}, 15},
    {{1, 0, 0, 0, 1, 1, 0, 0, 0, 1, 'k'}, 11},
    {{1, 0, 0, 0, 2, 2, 0, 0, 0, 4, 0, 1, 0, 2}, 14},
    {{4, 0, 0, 0, 0, 1, 0, 0, 0, 4, 0, 1, 0, 1}, 14},
    {{1, 0, 0, 0, 1, 1, 0, 0, 0, 1, 25}, 11},
    {{1, 0, 0, 0, 2, 1, 0, 0, 0, 1, 25}, 11},
};

static pthread_barrier_t together;
static unsigned rounds = 20000;

struct desk {
    uint8_t table[STEWLATTICE_TABLE_SIZE], room[STEWLATTICE_ROOM_LEAST];
    uint64_t answers; /* all of them, mixed in their order */
};

static void play(struct desk *desk) {
    memset(desk, 0xa5, sizeof *desk);
    desk->answers = stewlattice_start(desk->table, sizeof desk->table, book, sizeof book);
    for (unsigned round = 0; round < rounds; round++)
        for (unsigned n = 0; n < EVENTS; n++) {
            uint64_t answer = stewlattice_step(desk->table, sizeof desk->table, book, sizeof book, events[n].bytes,
                                               events[n].len, desk->room, sizeof desk->room);
            desk->answers = desk->answers * 31 + answer;
        }
}

static void *play_together(void *desk) {
    pthread_barrier_wait(&together);
    play(desk);
    return NULL;
}

/* threads [ROUNDS] */
int main(int argc, char **argv) {
    static struct desk alone, desks[THREADS];
    pthread_t threads[THREADS];
    if (argc > 1)
        rounds = (unsigned)strtoul(argv[1], NULL, 10);
    play(&alone);
    if (pthread_barrier_init(&together, NULL, THREADS) != 0)
        return EXIT_FAILURE;
    for (unsigned n = 0; n < THREADS; n++)
        if (pthread_create(&threads[n], NULL, play_together, &desks[n]) != 0)
            return EXIT_FAILURE;
    /* each round starts two processes */
    bool same = stewlattice_get(alone.table + STEWLATTICE_TABLE_SIZE - 4, 4) == 2 * rounds;
    for (unsigned n = 0; n < THREADS; n++) {
        pthread_join(threads[n], NULL);
        if (memcmp(&desks[n], &alone, sizeof alone) != 0) {
            printf("thread %u differs\n", n);
            same = false;
        }
    }
    pthread_barrier_destroy(&together);
    return same ? EXIT_SUCCESS : EXIT_FAILURE;
}
