/* Names and the order book in plain C, for plain.c. */
#ifndef PLAIN_NAMES_H
#define PLAIN_NAMES_H

#include "stewlattice.h"
#include <stdbool.h>
#include <string.h>

static inline unsigned get16(const uint8_t *from) { return (unsigned)(from[0] << 8 | from[1]); }

static inline uint32_t get32(const uint8_t *from) { return (uint32_t)get16(from) << 16 | get16(from + 2); }

static inline uint8_t fold(uint8_t byte) { return byte >= 'A' && byte <= 'Z' ? (uint8_t)(byte - 'A' + 'a') : byte; }

static inline bool is_digit(uint8_t byte) { return byte >= '0' && byte <= '9'; }

static inline bool is_alnum(uint8_t byte) {
    uint8_t folded = fold(byte);
    return is_digit(byte) || (folded >= 'a' && folded <= 'z');
}

static inline bool is_name(const uint8_t *s, size_t len) {
    if (len < 1 || len > STEWLATTICE_NAME_MOST)
        return false;
    size_t label = 0; /* bytes of the label so far */
    bool digits = true;
    for (size_t i = 0; i < len; i++) {
        if (s[i] == '.') {
            if (label == 0 || s[i - 1] == '-')
                return false;
            label = 0;
            digits = true;
            continue;
        }
        if (!is_alnum(s[i]) && !(s[i] == '-' && label > 0))
            return false;
        if (++label > 63)
            return false;
        digits = digits && is_digit(s[i]);
    }
    return label > 0 && s[len - 1] != '-' && !digits;
}

static inline bool is_folded(const uint8_t *s, size_t len) {
    for (size_t i = 0; i < len; i++)
        if (s[i] != fold(s[i]))
            return false;
    return true;
}

static inline void copy_folded(uint8_t *to, const uint8_t *from, size_t len) {
    for (size_t i = 0; i < len; i++)
        to[i] = fold(from[i]);
}

/* Are the bytes of h, folded, those of t, which is folded? */
static inline bool same_folded(const uint8_t *h, const uint8_t *t, size_t len) {
    for (size_t i = 0; i < len; i++)
        if (fold(h[i]) != t[i])
            return false;
    return true;
}

/* Is h under t, which is folded? */
static inline bool is_under(const uint8_t *h, size_t h_len, const uint8_t *t, size_t t_len) {
    if (h_len == t_len)
        return same_folded(h, t, t_len);
    return h_len > t_len && h[h_len - t_len - 1] == '.' && same_folded(h + h_len - t_len, t, t_len);
}

/* Byte order, a name before its continuations. */
static inline bool comes_before(const uint8_t *a, size_t a_len, const uint8_t *b, size_t b_len) {
    int order = memcmp(a, b, a_len < b_len ? a_len : b_len);
    return order < 0 || (order == 0 && a_len < b_len);
}

static inline bool orders_sound(const uint8_t *order, size_t orders) {
    unsigned last = 0;
    for (size_t i = 0; i < orders; i++, order += 3) {
        if (order[0] <= last || order[0] > STEWLATTICE_SEATS)
            return false;
        if (order[1] < 1 || order[1] > 99 || order[2] > 1)
            return false;
        last = order[0];
    }
    return true;
}

/* Do the names, each behind its length byte, fill the len bytes and rise? */
static inline bool listed_sound(const uint8_t *names, size_t len, size_t count) {
    const uint8_t *last = NULL;
    size_t at = 0, last_len = 0;
    for (size_t i = 0; i < count; i++) {
        if (at == len)
            return false;
        size_t name_len = names[at++];
        const uint8_t *name = names + at;
        if (name_len > STEWLATTICE_LISTED_MOST || name_len > len - at)
            return false;
        if (!is_name(name, name_len) || !is_folded(name, name_len))
            return false;
        if (last != NULL && !comes_before(last, last_len, name, name_len))
            return false;
        last = name;
        last_len = name_len;
        at += name_len;
    }
    return at == len;
}

static inline bool book_sound(const uint8_t *book, size_t len) {
    if (len < STEWLATTICE_BOOK_LEAST || len > STEWLATTICE_BOOK_MOST)
        return false;
    const uint8_t *trailer = book + len - 8;
    size_t orders = trailer[2], names_at = get16(trailer + 4);
    if (get16(trailer) != 0 || trailer[3] != 0 || names_at != 3 * orders || names_at > len - 8)
        return false;
    return orders_sound(book, orders) && listed_sound(book + names_at, len - 8 - names_at, get16(trailer + 6));
}

/* The length of the longest listed name of a sound book that the host is under, or 0. */
static inline size_t longest_listed(const uint8_t *host, size_t host_len, const uint8_t *book, size_t len) {
    size_t longest = 0;
    for (size_t at = get16(book + len - 4); at < len - 8; at += 1 + book[at])
        if (book[at] > longest && is_under(host, host_len, book + at + 1, book[at]))
            longest = book[at];
    return longest;
}

/* The length of the host's suffix under a sound book, or 0 if that is refused. */
static inline size_t suffix_len(const uint8_t *host, size_t host_len, const uint8_t *book, size_t len) {
    if (!is_name(host, host_len))
        return 0;
    size_t listed = longest_listed(host, host_len, book, len);
    if (listed == 0 || listed == host_len)
        return 0;
    size_t start = host_len - listed - 1; /* at the dot before the listed name */
    while (start > 0 && host[start - 1] != '.')
        start--;
    return host_len - start <= STEWLATTICE_SUFFIX_MOST ? host_len - start : 0;
}

#endif
