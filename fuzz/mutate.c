/* How libFuzzer changes an input: by whole records, so that most of what it tries is read as far as some rule. After a
 * change inside an event its size is mended, mostly; an event is aimed at a seat, tab or process that may be live. */
#include "plain_table.h"
#include "record.h"

size_t LLVMFuzzerMutate(uint8_t *data, size_t size, size_t max_size);
size_t LLVMFuzzerCustomMutator(uint8_t *data, size_t size, size_t max_size, unsigned seed);
size_t LLVMFuzzerCustomCrossOver(const uint8_t *one, size_t one_size, const uint8_t *two, size_t two_size, uint8_t *out,
                                 size_t max_out, unsigned seed);

/* Events to put in, which are then aimed. */
static const struct {
    uint8_t party, tag, size;
    const char *payload;
} stock[] = {
    {1, 1, 1, "\x0e"},          {1, 1, 1, "\x0f"},        {1, 1, 1, "\x19"},        {1, 1, 1, "k"},
    {1, 2, 4, "\0\1\0\2"},      {1, 3, 5, "a.com"},       {1, 3, 5, "B.com"},       {1, 3, 7, "b.co.uk"},
    {2, 1, 12, "memory-x-y-w"}, {2, 2, 7, "\0Pa.com"},    {2, 3, 9, "https://a"},   {2, 4, 9, "\5a.comk=v"},
    {2, 5, 7, "w.a.com"},       {3, 1, 7, "\0\0\0\0k=v"}, {4, 1, 7, "\0\0\0\0doc"},
};

/* Serials and process numbers up to FEW are what short inputs give. */
enum { STOCK = sizeof stock / sizeof stock[0], FEW = 12 };

/* A record being made. */
static uint8_t made[RECORD_HEAD + RECORD_MOST];

static uint32_t state;

static uint32_t below(uint32_t most) {
    state = state * 1664525 + 1013904223;
    return (uint32_t)((uint64_t)state * most >> 32);
}

/* From 1 up to the most, the low ones more often. */
static uint32_t low(uint32_t most) { return 1 + below(1 + below(most)); }

static size_t least(size_t a, size_t b) { return a < b ? a : b; }

struct span {
    size_t at, len;
};

/* Any record, with its head; an empty span if there is none. */
static struct span any_record(const uint8_t *data, size_t size) {
    struct span any = {0, 0};
    const uint8_t *rest = data, *at = data;
    struct record record;
    for (uint32_t seen = 1; next_record(&rest, &size, &record); seen++, at = rest)
        if (below(seen) == 0)
            any = (struct span){(size_t)(at - data), (size_t)(rest - at)};
    return any;
}

/* Where any record begins or ends. */
static size_t any_place(const uint8_t *data, size_t size) {
    struct span any = any_record(data, size);
    return any.at + (below(2) == 0 ? any.len : 0);
}

/* Puts bytes in the place of a span and gives the new size; does nothing if they do not fit. */
static size_t splice(uint8_t *data, size_t size, size_t max_size, struct span old, const uint8_t *bytes, size_t len) {
    if (size - old.len + len > max_size)
        return size;
    memmove(data + old.at + len, data + old.at + old.len, size - old.at - old.len);
    memcpy(data + old.at, bytes, len);
    return size - old.len + len;
}

/* Writes the head of the record that is being made; gives its whole length. */
static size_t make(enum record_kind kind, size_t len) {
    made[0] = (uint8_t)kind;
    stewlattice_put(made + 1, 2, (uint32_t)len);
    return RECORD_HEAD + len;
}

static void aim(uint8_t *event, size_t len) {
    uint32_t seat = low(STEWLATTICE_SEATS), tab = stewlattice_tab_id(seat, low(FEW)), number = low(FEW);
    if (len < STEWLATTICE_HEAD_SIZE)
        return;
    uint8_t party = event[0];
    uint32_t id = party == STEWLATTICE_SEAT ? seat : party == STEWLATTICE_TAB ? tab : number;
    stewlattice_put(event + 1, 4, party == STEWLATTICE_NETWORK ? 0 : id);
    if (party > STEWLATTICE_TAB && len >= STEWLATTICE_HEAD_SIZE + 4)
        stewlattice_put(event + STEWLATTICE_HEAD_SIZE, 4, tab);
}

static size_t make_event(void) {
    uint32_t i = below(STOCK);
    uint8_t *event = made + RECORD_HEAD;
    stewlattice_put_head(event, (struct stewlattice_head){stock[i].party, 0, stock[i].tag, stock[i].size});
    memcpy(event + STEWLATTICE_HEAD_SIZE, stock[i].payload, stock[i].size);
    aim(event, STEWLATTICE_HEAD_SIZE + stock[i].size);
    return make(RECORD_EVENT, STEWLATTICE_HEAD_SIZE + stock[i].size);
}

/* A few bytes for a place in the first seats, in the first process rows or in the trailer. */
static size_t make_patch(void) {
    uint32_t in_seats = SEAT_SIZE * (low(STEWLATTICE_SEATS) - 1) + below(SEAT_SIZE);
    uint32_t in_rows = PROCESSES + PROCESS_SIZE * (low(STEWLATTICE_PROCESS_ROWS) - 1) + below(PROCESS_SIZE);
    uint32_t places[] = {in_seats, in_rows, TRAILER + below(8)}, len = low(4);
    stewlattice_put(made + RECORD_HEAD, 2, places[below(3)]);
    for (uint32_t i = 0; i < len; i++)
        made[RECORD_HEAD + 2 + i] = (uint8_t)(below(2) == 0 ? low(4) - 1 : below(256));
    return make(RECORD_PATCH, 2 + len);
}

/* Aims an event anew, or lets libFuzzer change the bytes of a record. */
static size_t change(uint8_t *data, size_t size, size_t max_size) {
    struct span old = any_record(data, size);
    if (old.len == 0)
        return size;
    memcpy(made, data + old.at, old.len);
    uint8_t *bytes = made + RECORD_HEAD;
    size_t len = old.len - RECORD_HEAD, most = least(RECORD_MOST, len + max_size - size);
    bool is_event = made[0] % RECORD_KINDS == RECORD_EVENT;
    if (is_event && below(4) == 0)
        aim(bytes, len);
    else if (most > 0)
        len = LLVMFuzzerMutate(bytes, len, most);
    if (is_event && len >= STEWLATTICE_HEAD_SIZE && below(8) > 0)
        stewlattice_put(bytes + 6, 4, (uint32_t)(len - STEWLATTICE_HEAD_SIZE));
    return splice(data, size, max_size, old, made, make(made[0], len));
}

size_t LLVMFuzzerCustomMutator(uint8_t *data, size_t size, size_t max_size, unsigned seed) {
    state = seed;
    struct span any = any_record(data, size), here = {any_place(data, size), 0};
    switch (below(10)) {
    case 0: /* one record less */
        return splice(data, size, max_size, any, made, 0);
    case 1: /* one of them again */
        memcpy(made, data + any.at, any.len);
        return splice(data, size, max_size, here, made, any.len);
    case 2:
    case 3:
        return splice(data, size, max_size, here, made, make_event());
    case 4:
        return splice(data, size, max_size, here, made, make_patch());
    case 5: /* whatever libFuzzer does to bytes */
        return LLVMFuzzerMutate(data, size, max_size);
    default:
        return change(data, size, max_size);
    }
}

/* The records of one up to some place, then those of the other from some place on. */
size_t LLVMFuzzerCustomCrossOver(const uint8_t *one, size_t one_size, const uint8_t *two, size_t two_size, uint8_t *out,
                                 size_t max_out, unsigned seed) {
    state = seed;
    size_t first = least(any_place(one, one_size), max_out), from = any_place(two, two_size);
    size_t second = least(two_size - from, max_out - first);
    memcpy(out, one, first);
    memcpy(out + first, two + from, second);
    return first + second;
}
