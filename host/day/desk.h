/* A desk's screen, played by printed lines: the bar, which only the kernel writes, and what its selected tab shows. It
 * remembers what was shown, so that the day can tell afterwards who saw what. */
#ifndef DESK_H
#define DESK_H

#include "wire.h"

enum { SHOWN_MOST = 64 };

struct desk {
    unsigned paints;
    char shown[SHOWN_MOST][PAGE_WIDTH + 1];
};

/* Bytes of others, printed: what is no printable character of ASCII is shown as a question mark. */
void desk_print(const uint8_t *bytes, size_t size);

void desk_bar(uint32_t seat, const uint8_t *suffix, size_t size);

/* Paints a row of at most PAGE_WIDTH characters; blanks at its end are left out. */
void desk_paint(struct desk *desk, uint32_t seat, const uint8_t *row, size_t size);

/* Did the desk ever show this text? The answer is good as long as paints is at most SHOWN_MOST. */
bool desk_saw(const struct desk *desk, const char *text);

#endif
