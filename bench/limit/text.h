/* Octets and text for the limit, by words of eight octets and SSE2, which every x86-64 has. None loads an octet behind `end`, the end of the document or of the text area. */
#ifndef LIMIT_TEXT_H
#define LIMIT_TEXT_H

#include <emmintrin.h>
#include <stddef.h>
#include <stdint.h>
#include <string.h>

/* Inlined, or kept out of line: a call in a function that runs often saves registers at every run. */
#define ALWAYS static inline __attribute__((always_inline))
#define NEVER static __attribute__((noinline))
#define likely(x) __builtin_expect(!!(x), 1)
#define unlikely(x) __builtin_expect(!!(x), 0)

#define HIGH 0x8080808080808080u /* the highest bit of each octet */
#define SPACES 0x2020202020202020u
#define MIX 0x9E3779B97F4A7C15u  /* 2 to the 64 by the golden ratio */

ALWAYS uint64_t eight(const uint8_t *at) { uint64_t x; memcpy(&x, at, sizeof x); return x; }
ALWAYS uint32_t four(const uint8_t *at) { uint32_t x; memcpy(&x, at, sizeof x); return x; }
ALWAYS __m128i block(const void *at) { return _mm_loadu_si128(at); }

/* Plain octets are those from 20 to 7F. Not 0 where one of n octets, 1 to 8 and the lowest of x, is not: a difference below 0 has the high bit set, and what it takes from the
   octets above it does not matter then. */
ALWAYS uint64_t differs(uint64_t x) { return x | (x - SPACES); }
ALWAYS uint64_t not_plain(uint64_t x, size_t n) { return differs(x) & HIGH >> (64 - 8 * n); }

/* Which of sixteen octets are not: as signed numbers those above 7F are below 20 too. */
ALWAYS __m128i odd(__m128i octets) { return _mm_cmplt_epi8(octets, _mm_set1_epi8(0x20)); }
ALWAYS int some(__m128i octets) { return _mm_movemask_epi8(octets); }

/* One to seven octets as a number. */
ALWAYS uint64_t few(const uint8_t *at, size_t n, const uint8_t *end) {
    if (likely(end - at >= 8)) return eight(at) & (~(uint64_t)0 >> (64 - 8 * n));
    uint64_t x = 0;
    for (size_t i = 0; i < n; i++) x |= (uint64_t)at[i] << 8 * i;
    return x;
}

ALWAYS int follows(uint8_t octet) { return (octet & 0xC0) == 0x80; }

/* FFFE and FFFF, whose octets are EF BF BE and EF BF BF, are no characters of XML. */
ALWAYS int is_barred(uint32_t x) { return (x & 0xFEFFFF) == 0xBEBFEF; }

/* How many octets the character at `at` has, which is not plain; 0 where there is none. */
ALWAYS size_t character(const uint8_t *at, const uint8_t *end) {
    uint8_t first = at[0];
    size_t left = (size_t)(end - at);
    if (first < 0x20) return first == 0x9 || first == 0xA || first == 0xD;
    if (first < 0xE0) return first >= 0xC2 && left >= 2 && follows(at[1]) ? 2 : 0;
    if (first < 0xF0) {
        if (left < 3 || !follows(at[1]) || !follows(at[2])) return 0;
        return (first == 0xE0 && at[1] < 0xA0) || (first == 0xED && at[1] >= 0xA0) || is_barred((uint32_t)(at[0] | at[1] << 8 | at[2] << 16)) ? 0 : 3;
    }
    if (first > 0xF4 || left < 4 || !follows(at[1]) || !follows(at[2]) || !follows(at[3])) return 0;
    return (first == 0xF0 && at[1] < 0x90) || (first == 0xF4 && at[1] >= 0x90) ? 0 : 4;
}

/* Behind a run of characters of three octets, four octets loaded for each; null where one is none. */
ALWAYS const uint8_t *threes(const uint8_t *at, const uint8_t *end) {
    while (end - at >= 4) {
        uint32_t x = four(at);
        if ((x & 0xC0C0F0) != 0x8080E0) break;
        if (is_barred(x)) return NULL;
        x &= 0x200F;
        if (x == 0 || x == 0x200D) return NULL; /* E0 with 80 to 9F behind it, ED with A0 to BF */
        at += 3;
    }
    return at;
}

/* Text of any characters. */
NEVER int is_utf8(const uint8_t *at, const uint8_t *end) {
    while (at < end) {
        if (*at >= 0x20 && *at < 0x80) {
            at += end - at >= 8 && !not_plain(eight(at), 8) ? 8 : 1;
            continue;
        }
        at = threes(at, end);
        if (!at) return 0;
        if (at >= end) return 1;
        if (*at >= 0x20 && *at < 0x80) continue;
        size_t n = character(at, end);
        if (!n) return 0;
        at += n;
    }
    return 1;
}

/* Text of at least 16 octets. */
NEVER int is_long_text(const uint8_t *at, const uint8_t *end) {
    const uint8_t *from = at;
    for (; end - at >= 64; at += 64) {
        __m128i octets = _mm_or_si128(_mm_or_si128(odd(block(at)), odd(block(at + 16))), _mm_or_si128(odd(block(at + 32)), odd(block(at + 48))));
        if (some(octets)) return is_utf8(from, end);
    }
    for (; end - at >= 16; at += 16)
        if (some(odd(block(at)))) return is_utf8(from, end);
    return !some(odd(block(end - 16))) || is_utf8(from, end);
}

ALWAYS int is_text(const uint8_t *at, size_t n, const uint8_t *end) {
    if (n < 8) return likely(!not_plain(few(at, n, end), n)) || is_utf8(at, at + n);
    if (n < 16) return likely(!((differs(eight(at)) | differs(eight(at + n - 8))) & HIGH)) || is_utf8(at, at + n);
    return is_long_text(at, at + n);
}

/* A hash of a string; *other is not 0 where an octet is not plain, so that a name is looked through once. */
ALWAYS uint32_t hash_of(const uint8_t *at, size_t n, const uint8_t *end, uint64_t *other) {
    uint64_t octets, hash;
    if (n < 8) octets = few(at, n, end), hash = (octets + n) * MIX, *other = not_plain(octets, n);
    else {
        const uint8_t *last = at + n - 8;
        uint64_t x = eight(last);
        octets = differs(x), hash = (x + n) * MIX;
        for (; at < last; at += 8) x = eight(at), octets |= differs(x), hash = ((hash << 5 | hash >> 59) ^ x) * MIX;
        *other = octets & HIGH;
    }
    return (uint32_t)(hash >> 32);
}

ALWAYS int same(const uint8_t *a, const uint8_t *b, size_t n, const uint8_t *end) {
    if (n < 8) return few(a, n, end) == few(b, n, end);
    for (size_t i = 0; i + 8 < n; i += 8)
        if (eight(a + i) != eight(b + i)) return 0;
    return eight(a + n - 8) == eight(b + n - 8);
}

#endif
