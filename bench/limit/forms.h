/* Strings in other forms than utf-8 for the limit: tests of text, what a string says in UTF-8, and the octets of one in an alphabet. */
#ifndef LIMIT_FORMS_H
#define LIMIT_FORMS_H

#include "../../include/lomphachit.h"
#include "text.h"

#define TAG(x) LOMPHACHIT_TAG_##x
enum { SAID = LOMPHACHIT_SAID * LOMPHACHIT_OCTETS }; /* octets that a string can say */

ALWAYS int is_formed(uint32_t tag) { return tag - TAG(UTF_16) <= TAG(LONG) - TAG(UTF_16); }
ALWAYS uint32_t form_of(uint32_t tag) { return is_formed(tag) ? tag - TAG(XML_NAMESPACE) : 0; }

/* One character at least, each sixteen bits from 20 to D7FF in most texts: eight of them at once. */
NEVER int is_text_16(const uint8_t *at, size_t n) {
    const uint8_t *end = at + n;
    if (n % 2) return 0;
    while (at < end) {
        while (end - at >= 16) {
            __m128i x = block(at), units = _mm_or_si128(_mm_slli_epi16(x, 8), _mm_srli_epi16(x, 8));
            /* As signed numbers, behind a turn by which 20 is the lowest. */
            if (_mm_movemask_epi8(_mm_cmplt_epi16(_mm_sub_epi16(units, _mm_set1_epi16((short)0x8020)), _mm_set1_epi16(0x57E0))) != 0xFFFF) break;
            at += 16;
        }
        if (at == end) return 1;
        uint32_t unit = (uint32_t)at[0] << 8 | at[1];
        at += 2;
        if (unit < 0x20) {
            if (unit != 0x9 && unit != 0xA && unit != 0xD) return 0;
        } else if (unit >= 0xD800 && unit < 0xE000) {
            if (unit >= 0xDC00 || end - at < 2 || (at[0] & 0xFC) != 0xDC) return 0;
            at += 2;
        } else if (unit >= 0xFFFE) return 0;
    }
    return 1;
}

/* No half is 15, but for the very last. */
NEVER int are_places(const uint8_t *at, size_t n) {
    const uint8_t *last = at + n - 1;
    const __m128i low = _mm_set1_epi8(0x0F), high = _mm_set1_epi8((char)0xF0);
    for (; last - at >= 16; at += 16) {
        __m128i x = block(at);
        if (some(_mm_or_si128(_mm_cmpeq_epi8(_mm_and_si128(x, low), low), _mm_cmpeq_epi8(_mm_and_si128(x, high), high)))) return 0;
    }
    for (; at < last; at++)
        if (*at >= 0xF0 || (*at & 0x0F) == 0x0F) return 0;
    return *last < 0xF0;
}

/* The octets of an integer in a form of integers, whose tags are the last. */
ALWAYS uint32_t width_of(uint32_t tag) { return 2u << (tag - TAG(SHORT)); }

ALWAYS int is_text_in(uint32_t tag, const uint8_t *at, size_t n) {
    if (tag >= TAG(SHORT)) return !(n & (width_of(tag) - 1));
    return tag == TAG(UTF_16) ? is_text_16(at, n) : are_places(at, n);
}

/* The characters by alphabet: a bit for each that has one, and its place there. */
enum { NUMERIC = 1, DATES = 2 };
static const uint8_t fits[256] = {['0' ... '9'] = NUMERIC | DATES, ['-'] = NUMERIC | DATES, [' '] = NUMERIC | DATES,
                                  ['+'] = NUMERIC, ['.'] = NUMERIC, ['e'] = NUMERIC, [':'] = DATES, ['T'] = DATES, ['Z'] = DATES};
static const uint8_t place_of[256] = {['0'] = 0, 1, 2, 3, 4, 5, 6, 7, 8, 9, ['-'] = 10, ['+'] = 11, [':'] = 11, ['.'] = 12, ['T'] = 12, ['e'] = 13, ['Z'] = 13, [' '] = 14};

/* The alphabets that have all characters of a string in UTF-8, as bits. Most strings are told by their first octet. */
ALWAYS uint32_t alphabets(const uint8_t *at, size_t n) {
    uint32_t some = fits[at[0]];
    for (size_t i = 1; i < n && some; i++) some &= fits[at[i]];
    return some;
}

ALWAYS uint8_t *pack(uint8_t *to, const uint8_t *at, size_t n) {
    for (; n > 1; n -= 2, at += 2) *to++ = (uint8_t)(place_of[at[0]] << 4 | place_of[at[1]]);
    if (n) *to++ = (uint8_t)(place_of[at[0]] << 4 | 15);
    return to;
}

#endif
