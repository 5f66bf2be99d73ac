/* The fields of a document for the limit: numbers, lengths, strings and names. KEEP says whether rows and a record's words are filled in, as a read does and a check does not.

   Each field moves *at behind itself and gives 0; or gives a refusal, and *at is its place. */
#ifndef LIMIT_FIELDS_H
#define LIMIT_FIELDS_H

#include "tables.h"

struct run {
    const uint8_t *document;
    uint32_t *tables;
    const uint32_t *full; /* behind the last record lent */
    uint32_t counts[LOMPHACHIT_COUNTS];
    int root; /* has been opened */
    struct strings strings[URI + 1];
    struct names names[2];
    uint32_t words[2][ROWS][STRINGS]; /* of each element's and attribute's name, those that a record has between kind and place */
};

/* A string as a record has it, its number, and whether it is new. Place and length are moved as one word of eight octets, the place in its lower half. */
struct string { uint32_t tag, number; uint64_t stretch; int fresh; };
struct triple { struct string prefix, namespace, local; };
#define NO_STRING {TAG(ABSENT), 0, 0, 0}

/* C.25, from bit 2 on. */
ALWAYS uint32_t number_2(const uint8_t **at, const uint8_t *end, uint32_t *number) {
    const uint8_t *p = *at;
    uint32_t octet = *p;
    if (likely(!(octet & 0x40))) {
        *number = (octet & 0x3F) + 1, *at = p + 1;
        return 0;
    }
    if (!(octet & 0x20)) {
        if (end - p < 2) return REFUSED(TRUNCATED);
        *number = 65 + ((octet & 0x1F) << 8 | p[1]), *at = p + 2;
        return 0;
    }
    if (octet & 0x10) return REFUSED(CODE);
    if (end - p < 3) return REFUSED(TRUNCATED);
    uint32_t n = 8257 + ((octet & 0xF) << 16 | p[1] << 8 | p[2]);
    if (n > HIGHEST) return REFUSED(RANGE);
    *number = n, *at = p + 3;
    return 0;
}

/* The longest form of C.27 and C.28, behind `before` numbers of the others. */
ALWAYS uint32_t longest_number(const uint8_t **at, const uint8_t *end, uint32_t rest, uint32_t before, uint32_t *number) {
    const uint8_t *p = *at;
    if (rest) return REFUSED(PADDING);
    if (end - p < 4) return REFUSED(TRUNCATED);
    uint32_t n = (uint32_t)p[1] << 16 | p[2] << 8 | p[3];
    if (n >= HIGHEST) return REFUSED(PADDING);
    if (before + n >= HIGHEST) return REFUSED(RANGE);
    *number = before + n + 1, *at = p + 4;
    return 0;
}

/* C.27 (from bit 3 on) and C.28 (bit 4). */
ALWAYS uint32_t number_3_4(const uint8_t **at, const uint8_t *end, uint32_t bit, uint32_t *number) {
    const uint8_t *p = *at;
    uint32_t octet = *p, shorter = 1u << (8 - bit), middle = 1u << (14 - bit), longer = 1u << (22 - bit);
    uint32_t rest = octet & ((1u << (6 - bit)) - 1), form = octet >> (6 - bit) & 7;
    if (form < 4) {
        *number = (octet & (shorter - 1)) + 1, *at = p + 1;
        return 0;
    }
    if (form == 4) {
        if (end - p < 2) return REFUSED(TRUNCATED);
        *number = shorter + 1 + (rest << 8 | p[1]), *at = p + 2;
        return 0;
    }
    if (form == 5) {
        if (end - p < 3) return REFUSED(TRUNCATED);
        *number = shorter + middle + 1 + (rest << 16 | p[1] << 8 | p[2]), *at = p + 3;
        return 0;
    }
    return form == 7 ? REFUSED(CODE) : longest_number(at, end, rest, shorter + middle + longer, number);
}

/* C.22 to C.24: the length of a string from a bit on. *text is where the string stands, all of it. */
ALWAYS uint32_t length_from(const uint8_t *at, const uint8_t *end, uint32_t bit, const uint8_t **text, size_t *length) {
    uint32_t octet = *at, shorter = 1u << (8 - bit);
    if (likely(!(octet & shorter))) *length = (octet & (shorter - 1)) + 1, *text = at + 1;
    else {
        if (octet & ((shorter >> 1) - 1)) return REFUSED(PADDING);
        if (!(octet & shorter >> 1)) {
            if (end - at < 2) return REFUSED(TRUNCATED);
            *length = shorter + 1 + at[1], *text = at + 2;
        } else {
            if (end - at < 5) return REFUSED(TRUNCATED);
            *length = (size_t)shorter + 257 + __builtin_bswap32(four(at + 1)), *text = at + 5;
        }
    }
    return (size_t)(end - *text) < *length ? REFUSED(TRUNCATED) : 0;
}

/* A string by its number. */
ALWAYS uint32_t numbered(const struct run *run, uint32_t table, uint32_t number, struct string *x) {
    if (number > run->counts[table]) return REFUSED(INDEX);
    x->number = number, x->fresh = 0;
    if (!KEEP) return 0;
    if (table <= NAMESPACE && number == 1) {
        x->tag = table == PREFIX ? TAG(XML_PREFIX) : TAG(XML_NAMESPACE), x->stretch = 0;
        return 0;
    }
    const uint32_t *row = run->tables + lomphachit_row(table, number);
    x->tag = table < VALUE ? TAG(STRETCH) : lomphachit_tag_of(row[2]), memcpy(&x->stretch, row, sizeof x->stretch);
    return 0;
}

ALWAYS uint32_t numbered_from_2(const struct run *run, const uint8_t **at, const uint8_t *end, uint32_t table, struct string *x) {
    const uint8_t *p = *at;
    uint32_t number, refusal = number_2(&p, end, &number);
    if (unlikely(refusal)) return refusal;
    refusal = numbered(run, table, number, x);
    if (likely(!refusal)) *at = p;
    return refusal;
}

/* A table gets a stretch. */
ALWAYS uint32_t add(struct run *run, uint32_t table, uint64_t stretch, uint32_t form) {
    uint32_t number = run->counts[table] + 1;
    if (unlikely(number > ROWS)) return REFUSED(FULL);
    run->counts[table] = number;
    if (!KEEP) return 0;
    uint32_t *row = run->tables + lomphachit_row(table, number);
    memcpy(row, &stretch, sizeof stretch), row[2] = form;
    return 0;
}

ALWAYS uint64_t stretch_of(const struct run *run, const uint8_t *text, size_t n) { return (uint64_t)(text - run->document) | (uint64_t)n << 32; }

/* C.13: a string that is new where it is spelled. */
ALWAYS uint32_t identifying(struct run *run, const uint8_t **at, const uint8_t *end, uint32_t table, struct string *x) {
    if (unlikely(*at >= end)) return REFUSED(TRUNCATED);
    if (**at & 0x80) return numbered_from_2(run, at, end, table, x);
    const uint8_t *text;
    size_t n;
    uint64_t other;
    uint32_t refusal = length_from(*at, end, 2, &text, &n);
    if (unlikely(refusal)) return refusal;
    uint32_t hash = hash_of(text, n, end, &other), count = run->counts[table];
    struct strings *strings = &run->strings[table];
    if (unlikely(other) && !is_utf8(text, text + n)) return REFUSED(TEXT);
    if (built_in(table, text, n) || find_string(strings, untouched(table, count), run->document, text, n, end, hash)) return REFUSED(REPEAT);
    x->tag = TAG(STRETCH), x->number = count + 1, x->fresh = 1, x->stretch = stretch_of(run, text, n);
    refusal = add(run, table, x->stretch, 0);
    if (unlikely(refusal)) return refusal;
    add_string(strings, count + 1, (uint32_t)(text - run->document), n, hash);
    *at = text + n;
    return 0;
}

/* The tag of an alphabet (format 2) or of an algorithm, by its number less one; 0 for one that is not read. */
ALWAYS uint32_t numbered_tag(uint32_t format, uint32_t number) {
    if (format == 2) return number < 2 ? TAG(ALPHABET_1) + number : 0;
    return number - 2 < 3 ? TAG(SHORT) + number - 2 : 0;
}

/* The length behind the number of an alphabet or algorithm, whose octets are all there before the number is looked at. */
ALWAYS uint32_t numbered_from(const uint8_t *at, const uint8_t *end, uint32_t bit, uint32_t format, const uint8_t **text, size_t *length, uint32_t *tag) {
    if (end - at < 2) return REFUSED(TRUNCATED);
    uint32_t octet = at[1], shorter = 1u << (8 - bit), number = (uint32_t)(at[0] & (2 * shorter - 1)) << (bit - 1) | octet >> (9 - bit), padding = 0;
    if (!(octet & shorter)) *length = (octet & (shorter - 1)) + 1, *text = at + 2;
    else {
        padding = octet & ((shorter >> 1) - 1);
        *text = at + (octet & shorter >> 1 ? 6 : 3);
        if (end < *text) return REFUSED(TRUNCATED);
        *length = octet & shorter >> 1 ? (size_t)shorter + 257 + __builtin_bswap32(four(at + 2)) : shorter + 1 + at[2];
    }
    if ((size_t)(end - *text) < *length) return REFUSED(TRUNCATED);
    *tag = numbered_tag(format, number);
    return !*tag ? REFUSED(FORMAT) : padding ? REFUSED(PADDING) : 0;
}

/* One in another form than utf-8. */
NEVER uint32_t formed(struct run *run, const uint8_t **at, const uint8_t *end, uint32_t table, uint32_t bit, int adds, struct string *x) {
    uint32_t format = **at >> (9 - bit) & 3, refusal;
    const uint8_t *text;
    size_t n;
    x->tag = TAG(UTF_16);
    if ((refusal = format == 1 ? length_from(*at, end, bit, &text, &n) : numbered_from(*at, end, bit, format, &text, &n, &x->tag))) return refusal;
    if (!is_text_in(x->tag, text, n)) return REFUSED(TEXT);
    x->stretch = stretch_of(run, text, n), x->number = 0, x->fresh = 0;
    if (adds && unlikely(refusal = add(run, table, x->stretch, form_of(x->tag)))) return refusal;
    *at = text + n;
    return 0;
}

/* A string that may be spelled again, and says whether its table gets it. */
ALWAYS uint32_t spelled(struct run *run, const uint8_t **at, const uint8_t *end, uint32_t table, uint32_t bit, int adds, struct string *x) {
    const uint8_t *text;
    size_t n;
    if (unlikely(**at >> (9 - bit) & 3)) {
        /* What a call is lent does not stand in registers, so these are others. */
        const uint8_t *there = *at;
        struct string y;
        uint32_t refusal = formed(run, &there, end, table, bit, adds, &y);
        if (likely(!refusal)) *at = there, *x = y;
        return refusal;
    }
    uint32_t refusal = length_from(*at, end, bit, &text, &n);
    if (unlikely(refusal)) return refusal;
    if (!is_text(text, n, end)) return REFUSED(TEXT);
    x->tag = TAG(STRETCH), x->stretch = stretch_of(run, text, n);
    if (adds && unlikely(refusal = add(run, table, x->stretch, 0))) return refusal;
    *at = text + n;
    return 0;
}

/* C.14: a value, a comment or the content of an instruction. */
ALWAYS uint32_t value(struct run *run, const uint8_t **at, const uint8_t *end, uint32_t table, struct string *x) {
    if (unlikely(*at >= end)) return REFUSED(TRUNCATED);
    uint32_t octet = **at;
    if (octet & 0x80) {
        if (octet != 0xFF) return numbered_from_2(run, at, end, table, x);
        x->tag = TAG(EMPTY), x->stretch = 0, ++*at;
        return 0;
    }
    return spelled(run, at, end, table, 5, octet & 0x40, x);
}

ALWAYS void put_string(uint32_t *words, const struct string *x) { words[0] = x->tag, memcpy(words + 1, &x->stretch, sizeof x->stretch); }

/* A name gets its number, its row and a record's words. */
ALWAYS uint32_t add_triple(struct run *run, uint32_t table, uint32_t key, const struct triple *x) {
    uint32_t number = run->counts[table] + 1;
    if (unlikely(number > ROWS)) return REFUSED(FULL);
    run->counts[table] = number;
    add_name(&run->names[table - ELEMENT], number, key);
    if (!KEEP) return 0;
    put_row(run->tables, table, number, x->prefix.number, x->namespace.number, x->local.number);
    uint32_t *words = run->words[table - ELEMENT][number - 1];
    put_string(words, &x->prefix), put_string(words + 3, &x->namespace), put_string(words + 6, &x->local);
    words[9] = words[10] = words[11] = 0;
    return 0;
}

/* A name whose parts are known, which is new. */
ALWAYS uint32_t keep_triple(struct run *run, uint32_t table, const struct triple *x) {
    struct names *names = &run->names[table - ELEMENT];
    uint32_t key = key_of(x->prefix.number, x->namespace.number, x->local.number);
    if (run->counts[table] == 0) memset(names->first, 0, sizeof names->first);
    /* With a new string the name is new. */
    if (!x->local.fresh && !x->namespace.fresh && !x->prefix.fresh && find_name(names, key)) return REFUSED(REPEAT);
    return add_triple(run, table, key, x);
}

/* C.17.3, C.18.3: a name in its strings. Its number is then its table's count. */
ALWAYS uint32_t triple(struct run *run, const uint8_t **at, const uint8_t *end, uint32_t table) {
    const uint8_t *place = *at;
    uint32_t there = *place & 3, refusal;
    if (there == 2) return REFUSED(STRUCTURE);
    struct triple x = {NO_STRING, NO_STRING, NO_STRING};
    ++*at;
    if (there & 2 && unlikely(refusal = identifying(run, at, end, PREFIX, &x.prefix))) return refusal;
    if (there & 1 && unlikely(refusal = identifying(run, at, end, NAMESPACE, &x.namespace))) return refusal;
    if (unlikely(refusal = identifying(run, at, end, LOCAL, &x.local))) return refusal;
    if (unlikely(refusal = keep_triple(run, table, &x))) *at = place;
    return refusal;
}

#endif
