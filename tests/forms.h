/* What a string says, in UTF-8, by the tag of its form: a decoder for each form, of well-formed octets only. */
#ifndef FORMS_H
#define FORMS_H
#include <stddef.h>
#include <inttypes.h>
#include <stdint.h>
#include <stdio.h>
#include <string.h>

enum { TAG_UTF_8 = 2, TAG_XML = 3, TAG_XMLNS = 4, TAG_UTF_16 = 5, TAG_ALPHABET_1 = 6, TAG_ALPHABET_2 = 7, TAG_SHORT = 8, TAG_INT = 9, TAG_LONG = 10 };
enum { LONGER = 4 /* octets that one octet of any form can say */ };

static size_t put_character(uint8_t *out, uint32_t c) {
    size_t more = (c > 0x7F) + (c > 0x7FF) + (c > 0xFFFF);
    static const uint8_t lead[] = {0, 0xC0, 0xE0, 0xF0};
    for (size_t i = more; i > 0; i--, c >>= 6) out[i] = (uint8_t)(0x80 | (c & 0x3F));
    out[0] = (uint8_t)(lead[more] | c);
    return more + 1;
}

static size_t from_utf_16(const uint8_t *x, size_t n, uint8_t *out) {
    size_t made = 0;
    for (size_t i = 0; i + 1 < n; i += 2) {
        uint32_t c = (uint32_t)(x[i] << 8 | x[i + 1]);
        if (c >> 10 == 0x36 && i + 3 < n) {
            c = 0x10000 + ((c & 0x3FF) << 10) + (uint32_t)((x[i + 2] & 3) << 8 | x[i + 3]);
            i += 2;
        }
        made += put_character(out + made, c);
    }
    return made;
}

static size_t from_alphabet(const char *letters, const uint8_t *x, size_t n, uint8_t *out) {
    size_t made = 0;
    for (size_t i = 0; i < 2 * n; i++) {
        int code = i % 2 ? x[i / 2] & 15 : x[i / 2] >> 4;
        if (code < 15) out[made++] = (uint8_t)letters[code];
    }
    return made;
}

/* Integers of so many octets, by the C library. */
static size_t from_integers(size_t width, const uint8_t *x, size_t n, uint8_t *out) {
    size_t made = 0;
    for (size_t i = 0; i + width <= n; i += width) {
        uint64_t z = 0;
        for (size_t k = 0; k < width; k++) z = z << 8 | x[i + k];
        char word[24];
        const size_t letters = (size_t)sprintf(word, "%" PRId64, width == 2 ? (int16_t)z : width == 4 ? (int32_t)z : (int64_t)z);
        if (i) out[made++] = ' ';
        memcpy(out + made, word, letters), made += letters;
    }
    return made;
}

/* How many octets of UTF-8 the string of these three words, tag, place and length, puts into `out`. */
static size_t said(const uint8_t *from, const uint32_t *w, uint8_t *out) {
    const uint8_t *x = from + w[1];
    const char *built_in = w[0] == TAG_XML ? "xml" : w[0] == TAG_XMLNS ? "http://www.w3.org/XML/1998/namespace" : "";
    switch (w[0]) {
    case TAG_UTF_8: memcpy(out, x, w[2]); return w[2];
    case TAG_UTF_16: return from_utf_16(x, w[2], out);
    case TAG_ALPHABET_1: return from_alphabet("0123456789-+.e ", x, w[2], out);
    case TAG_ALPHABET_2: return from_alphabet("0123456789-:TZ ", x, w[2], out);
    case TAG_SHORT: return from_integers(2, x, w[2], out);
    case TAG_INT: return from_integers(4, x, w[2], out);
    case TAG_LONG: return from_integers(8, x, w[2], out);
    default: memcpy(out, built_in, strlen(built_in)); return strlen(built_in);
    }
}

/* The tag of the form that stands in the third word of a row. */
static uint32_t tag_of_row(uint32_t form) { return form ? TAG_UTF_16 + form - 1 : TAG_UTF_8; }

#endif
