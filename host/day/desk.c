/* A desk's screen, printed; see desk.h. */
#include "desk.h"
#include <inttypes.h>
#include <stdio.h>
#include <string.h>

static char plain(uint8_t byte) { return byte >= 32 && byte <= 126 ? (char)byte : '?'; }

void desk_print(const uint8_t *bytes, size_t size) {
    for (size_t i = 0; i < size; i++)
        putchar(plain(bytes[i]));
}

void desk_bar(uint32_t seat, const uint8_t *suffix, size_t size) {
    printf("  seat %" PRIu32 " bar: ", seat);
    desk_print(suffix, size);
    puts(size == 0 ? "(empty)" : "");
}

void desk_paint(struct desk *desk, uint32_t seat, const uint8_t *row, size_t size) {
    char *text = desk->shown[desk->paints++ % SHOWN_MOST];
    while (size > 0 && row[size - 1] == ' ')
        size--;
    for (size_t i = 0; i < size; i++)
        text[i] = plain(row[i]);
    text[size] = '\0';
    printf("  seat %" PRIu32 " screen: %s\n", seat, text);
}

bool desk_saw(const struct desk *desk, const char *text) {
    for (unsigned i = 0; i < desk->paints && i < SHOWN_MOST; i++)
        if (strstr(desk->shown[i], text) != NULL)
            return true;
    return false;
}
