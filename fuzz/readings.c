/* Plays a call with the kernel, with the reference in Rust and with the rule sheet in plain C, and compares all that
 * they give back. The kernel's code is not instrumented, so what it is lent ends where a page begins that nobody may
 * touch, behind a margin that must stay; or it adjoins, and ends there as a whole. The others are lent heap blocks of
 * exact size. */
#define _DEFAULT_SOURCE /* MAP_ANONYMOUS */
#include "readings.h"
#include <stdio.h>
#include <stdlib.h>
#include <string.h>
#include <sys/mman.h>

typedef uint64_t start_call(uint8_t *, size_t, const uint8_t *, size_t);
typedef uint64_t step_call(uint8_t *, size_t, const uint8_t *, size_t, const uint8_t *, size_t, uint8_t *, size_t);

extern start_call reference_start, plain_start;
extern step_call reference_step, plain_step;

struct reading {
    const char *name;
    start_call *start;
    step_call *step;
};

static const struct reading kernel = {"kernel", stewlattice_start, stewlattice_step};
static const struct reading others[] = {{"reference", reference_start, reference_step},
                                        {"plain C", plain_start, plain_step}};

static const char *const names[LENT] = {"table", "book", "event", "room"};

enum { PAGE = 4096, AREA = 65 * PAGE, MARGIN = 64, PATTERN = 0xa5 };

static _Noreturn void give_up(const char *why) {
    perror(why);
    exit(EXIT_FAILURE);
}

/* The end of the pages for this buffer; the page behind it is fenced. */
static uint8_t *fence(int name) {
    static uint8_t *ends[LENT];
    if (ends[name] == NULL) {
        void *pages = mmap(NULL, AREA + PAGE, PROT_READ | PROT_WRITE, MAP_PRIVATE | MAP_ANONYMOUS, -1, 0);
        if (pages == MAP_FAILED || mprotect((uint8_t *)pages + AREA, PAGE, PROT_NONE) != 0)
            give_up("no fenced pages");
        ends[name] = (uint8_t *)pages + AREA;
    }
    return ends[name];
}

static void copy(struct bytes to, struct bytes from) {
    if (from.len > 0)
        memcpy(to.at, from.at, from.len);
}

/* Lays out what the kernel is lent. */
static void lay(const struct call *call, struct bytes *own) {
    for (int name = LENT - 1; name >= 0; name--) {
        uint8_t *end = call->adjoins && name + 1 < LENT ? own[name + 1].at : fence(name);
        own[name] = (struct bytes){end - call->lent[name].len, call->lent[name].len};
        memset(own[name].at - MARGIN, PATTERN, MARGIN);
        copy(own[name], call->lent[name]);
    }
}

/* Where what is lent adjoins, only the first of it has a margin left. */
static bool margin_stays(const struct call *call, const struct bytes *own, int name) {
    uint8_t pattern[MARGIN];
    memset(pattern, PATTERN, MARGIN);
    return (call->adjoins && name > 0) || memcmp(own[name].at - MARGIN, pattern, MARGIN) == 0;
}

static struct bytes on_heap(struct bytes bytes) {
    struct bytes own = {malloc(bytes.len), bytes.len};
    if (own.at == NULL)
        give_up("no memory");
    copy(own, bytes);
    return own;
}

static uint64_t play_alone(const struct reading *reading, bool starts, const struct bytes *lent) {
    struct bytes table = lent[TABLE], book = lent[BOOK], event = lent[EVENT], room = lent[ROOM];
    if (starts)
        return reading->start(table.at, table.len, book.at, book.len);
    return reading->step(table.at, table.len, book.at, book.len, event.at, event.len, room.at, room.len);
}

static void print_bytes(const char *name, struct bytes bytes) {
    fprintf(stderr, "%s of %zu bytes: ", name, bytes.len);
    for (size_t i = 0; i < bytes.len; i++)
        fprintf(stderr, "%02x", bytes.at[i]);
    fputc('\n', stderr);
}

static void print_answer(const char *name, uint64_t answer) {
    fprintf(stderr, "%s: number %d, %u actions, %zu bytes, in all %#llx\n", name, (int)stewlattice_number(answer),
            stewlattice_actions(answer), stewlattice_bytes(answer), (unsigned long long)answer);
}

static _Noreturn void differ(const struct call *call, const char *other, const char *where) {
    fprintf(stderr, "differs: %s, kernel against %s, at a %s\n", where, other, call->starts ? "start" : "step");
    print_bytes("book", call->lent[BOOK]);
    print_bytes("event", call->lent[EVENT]);
    abort();
}

static void compare_bytes(const struct call *call, const char *other, int name, const uint8_t *its,
                          const uint8_t *left) {
    size_t len = call->lent[name].len, i = 0;
    if (memcmp(its, left, len) == 0)
        return;
    while (its[i] == left[i])
        i++;
    fprintf(stderr, "byte %zu of the %s: kernel %02x, %s %02x\n", i, names[name], left[i], other, its[i]);
    differ(call, other, names[name]);
}

static void compare(const struct call *call, const struct reading *other, uint64_t answer, const struct bytes *left) {
    struct bytes own[LENT];
    for (int name = 0; name < LENT; name++)
        own[name] = on_heap(call->lent[name]);
    uint64_t its = play_alone(other, call->starts, own);
    if (its != answer) {
        print_answer(kernel.name, answer);
        print_answer(other->name, its);
        differ(call, other->name, "answer");
    }
    for (int name = 0; name < LENT; name++) {
        compare_bytes(call, other->name, name, own[name].at, left[name].at);
        free(own[name].at);
    }
}

uint64_t play(const struct call *call) {
    struct bytes left[LENT];
    lay(call, left);
    uint64_t answer = play_alone(&kernel, call->starts, left);
    for (int name = 0; name < LENT; name++)
        if (!margin_stays(call, left, name))
            differ(call, "its margin", names[name]);
    for (size_t i = 0; i < sizeof others / sizeof others[0]; i++)
        compare(call, &others[i], answer, left);
    copy(call->lent[TABLE], left[TABLE]);
    copy(call->lent[ROOM], left[ROOM]);
    return answer;
}
