/* The fuzz target: plays the records of an input, call after call, on one table. Assumes nothing of an input. */
#include "plain_table.h"
#include "readings.h"
#include "record.h"
#include <string.h>

/* An input is played up to so many calls, so that none takes long. */
enum { CALLS_MOST = 256 };

enum { PARTIES = 6, TAGS = 8, NUMBERS = 11, COUNTS = STEWLATTICE_ACTIONS_MOST + 1, SIZES = 11 };

/* What comes of an event counts as coverage, since the kernel's code is not instrumented: the answer to each sort of
 * event; the sizes that its copying may tell apart, adjoining or not; how many tabs are live. libFuzzer clears this
 * before each input and reads it afterwards. */
__attribute__((section("__libfuzzer_extra_counters"))) static volatile struct {
    uint8_t answers[PARTIES][TAGS][NUMBERS][COUNTS], sizes[PARTIES][TAGS][SIZES][2];
    uint8_t tabs[STEWLATTICE_SEATS * STEWLATTICE_SLOTS + 1];
} seen;

/* The table and the room go on from call to call; before the first start the table is no table. */
static uint8_t table[RECORD_MOST], room[RECORD_MOST];
static size_t table_len, room_len;
static struct bytes book;
static unsigned calls;

static void lend_all(void) {
    table_len = STEWLATTICE_TABLE_SIZE;
    room_len = STEWLATTICE_ROOM_LEAST;
}

static void begin(void) {
    memset(table, 0xa5, sizeof table);
    memset(room, 0x5a, sizeof room);
    book = (struct bytes){NULL, 0};
    calls = 0;
    lend_all();
}

static unsigned live_tabs(void) {
    unsigned live = 0;
    for (unsigned seat = 1; seat <= STEWLATTICE_SEATS; seat++)
        live += (unsigned)__builtin_popcount(get16(seat_at(table, seat) + MAP));
    return live;
}

static unsigned sort_of_size(size_t size) {
    return size < 32 ? (unsigned)size / 4 : size % 32 == 0 ? 8 : size % 4 == 0 ? 9 : 10;
}

static void note(const struct call *call, uint64_t answer) {
    const uint8_t *event = call->lent[EVENT].at;
    size_t len = call->lent[EVENT].len;
    unsigned number = stewlattice_number(answer), actions = stewlattice_actions(answer);
    if (len < STEWLATTICE_HEAD_SIZE || event[0] >= PARTIES || event[5] >= TAGS || number >= NUMBERS ||
        actions >= COUNTS)
        return;
    seen.answers[event[0]][event[5]][number][actions] = 1;
    if (number != STEWLATTICE_DONE)
        return;
    seen.sizes[event[0]][event[5]][sort_of_size(len - STEWLATTICE_HEAD_SIZE)][call->adjoins] = 1;
    seen.tabs[live_tabs()] = 1;
}

/* Calls start if there is no event. What is lent adjoins every other time. */
static void call_kernel(const struct bytes *event) {
    struct call call = {event == NULL, calls++ % 2 == 1, {[TABLE] = {table, table_len}, [BOOK] = book}};
    if (event != NULL) {
        call.lent[EVENT] = *event;
        call.lent[ROOM] = (struct bytes){room, room_len};
    }
    note(&call, play(&call));
    lend_all();
}

static void patch(struct bytes bytes) {
    size_t place = bytes.len < 2 ? STEWLATTICE_TABLE_SIZE : get16(bytes.at);
    for (size_t i = 2; i < bytes.len && place < STEWLATTICE_TABLE_SIZE; i++)
        table[place++] = bytes.at[i];
}

static void lend(struct bytes bytes) {
    if (bytes.len < 4)
        return;
    table_len = stewlattice_get(bytes.at, 2);
    room_len = stewlattice_get(bytes.at + 2, 2);
}

static void play_record(struct record record) {
    struct bytes bytes = {(uint8_t *)record.bytes, record.len};
    switch (record.kind) {
    case RECORD_EVENT:
        call_kernel(&bytes);
        break;
    case RECORD_START:
        book = bytes;
        call_kernel(NULL);
        break;
    case RECORD_BOOK:
        book = bytes;
        break;
    case RECORD_PATCH:
        patch(bytes);
        break;
    default:
        lend(bytes);
    }
}

int LLVMFuzzerTestOneInput(const uint8_t *data, size_t size) {
    struct record record;
    begin();
    while (calls < CALLS_MOST && next_record(&data, &size, &record))
        play_record(record);
    return 0;
}
