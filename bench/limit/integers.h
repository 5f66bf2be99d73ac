/* Lists of integers for the limit's writer: whether a string in UTF-8 is one, and its octets then. */
#ifndef LIMIT_INTEGERS_H
#define LIMIT_INTEGERS_H

#include "text.h"

/* Behind the word of an integer, null where there is none: `0`, or digits that start with another, a minus sign in front of them or not. A number from 0 on is itself, one below is
   -1 less it. More digits than 19 are beyond eight octets, and any 19 are within a word. */
ALWAYS const uint8_t *integer(const uint8_t *at, const uint8_t *end, uint64_t *number, uint64_t *below) {
    *below = at < end && *at == '-';
    const uint8_t *first = at += *below;
    uint64_t n = 0;
    for (; at < end && (uint8_t)(*at - '0') < 10; at++) n = 10 * n + (uint64_t)(*at - '0');
    if (at == first || at - first > 19 || (*first == '0' && (at - first > 1 || *below))) return NULL;
    *number = n - *below;
    return at;
}

/* How many octets the integers of a string have, each in the least width that has them all; 0 where it is no list of them. */
NEVER uint32_t integers(const uint8_t *at, size_t n, uint32_t *width) {
    const uint8_t *end = at + n;
    uint64_t number, below, all = 0;
    uint32_t count = 1;
    for (;; count++) {
        if (!(at = integer(at, end, &number, &below))) return 0;
        all |= number;
        if (at == end) break;
        if (*at++ != ' ') return 0;
    }
    if (all >> 63) return 0;
    *width = all < 1u << 15 ? 2 : all < 1u << 31 ? 4 : 8;
    return count * *width;
}

/* The octets of a string that is a list of integers of this width. */
ALWAYS uint8_t *put_integers(uint8_t *to, const uint8_t *at, size_t n, uint32_t width) {
    const uint8_t *end = at + n;
    uint64_t number = 0, below = 0;
    for (;; at++) {
        at = integer(at, end, &number, &below);
        uint64_t octets = __builtin_bswap64((number ^ (0 - below)) << (64 - 8 * width));
        memcpy(to, &octets, width), to += width;
        if (at == end) return to;
    }
}

#endif
