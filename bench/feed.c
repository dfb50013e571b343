/* What the kernel alone costs on a recording: every event of it, from memory, and nothing written out.
     feed BOOK EVENTS    prints the events and the nanoseconds of processor time that the fastest of five passes took,
                         each from a new start */
#define _POSIX_C_SOURCE 199309L
#include "stewlattice.h"
#include <stdio.h>
#include <stdlib.h>
#include <time.h>

static uint8_t *contents(const char *name, size_t *length) {
    FILE *file = fopen(name, "rb");
    uint8_t *bytes;
    if (!file || fseek(file, 0, SEEK_END) != 0)
        exit(1);
    *length = (size_t)ftell(file);
    rewind(file);
    bytes = malloc(*length + 1);
    if (!bytes || fread(bytes, 1, *length, file) != *length)
        exit(1);
    fclose(file);
    return bytes;
}

static double now(void) {
    struct timespec t;
    clock_gettime(CLOCK_PROCESS_CPUTIME_ID, &t);
    return 1e9 * (double)t.tv_sec + (double)t.tv_nsec;
}

int main(int argc, char **argv) {
    static uint8_t table[STEWLATTICE_TABLE_SIZE], room[STEWLATTICE_ROOM_LEAST];
    size_t book_length, length, at, events = 0;
    uint8_t *book, *stream;
    double best = 0;
    if (argc != 3)
        return 1;
    book = contents(argv[1], &book_length);
    stream = contents(argv[2], &length);
    for (int pass = 0; pass < 5; pass++) {
        if (stewlattice_start(table, sizeof table, book, book_length) != 0)
            return 1;
        double began = now();
        for (at = 0, events = 0; at < length; events++) {
            const uint8_t *e = stream + at;
            size_t n = STEWLATTICE_HEAD_SIZE + ((size_t)e[6] << 24 | (size_t)e[7] << 16 | (size_t)e[8] << 8 | e[9]);
            stewlattice_step(table, sizeof table, book, book_length, e, n, room, sizeof room);
            at += n;
        }
        double took = now() - began;
        best = pass == 0 || took < best ? took : best;
    }
    printf("%zu %.0f\n", events, best);
    free(book);
    free(stream);
    return 0;
}
