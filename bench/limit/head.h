/* The head of a document for the limit (C.2.5): the entries that it lists for the tables. Few documents have one, so that it is one function beside the run. */
#ifndef LIMIT_HEAD_H
#define LIMIT_HEAD_H

#include "fields.h"

/* C.21: how many entries a table lists. */
ALWAYS uint32_t listed_count(const uint8_t **at, const uint8_t *end, uint32_t *count) {
    const uint8_t *p = *at;
    if (p >= end) return REFUSED(TRUNCATED);
    if (*p < 0x80) {
        *count = *p + 1u, *at = p + 1;
        return 0;
    }
    if (*p & 0x70) return REFUSED(PADDING);
    if (end - p < 3) return REFUSED(TRUNCATED);
    uint32_t n = 129 + ((*p & 0xFu) << 16 | p[1] << 8 | p[2]);
    if (n > HIGHEST) return REFUSED(RANGE);
    *count = n, *at = p + 3;
    return 0;
}

/* C.2.5.3, C.2.5.4. */
ALWAYS uint32_t listed_string(struct run *run, const uint8_t **at, const uint8_t *end, uint32_t table) {
    struct string x;
    if (unlikely(*at >= end)) return REFUSED(TRUNCATED);
    if (**at & (table <= URI ? 0x80 : 0xC0)) return REFUSED(PADDING);
    if (table <= URI) return identifying(run, at, end, table, &x);
    return spelled(run, at, end, table, 5, 1, &x);
}

/* The number of a name's part. */
ALWAYS uint32_t listed_part(const struct run *run, const uint8_t **at, const uint8_t *end, uint32_t table, struct string *x) {
    if (unlikely(*at >= end)) return REFUSED(TRUNCATED);
    if ((**at & 0x70) == 0x70) return REFUSED(CODE);
    return **at & 0x80 ? REFUSED(PADDING) : numbered_from_2(run, at, end, table, x);
}

/* C.2.5.5, C.16. */
ALWAYS uint32_t listed_name(struct run *run, const uint8_t **at, const uint8_t *end, uint32_t table) {
    const uint8_t *place = *at;
    struct triple x = {NO_STRING, NO_STRING, NO_STRING};
    uint32_t refusal;
    if (unlikely(place >= end)) return REFUSED(TRUNCATED);
    if (*place & 0xFC) return REFUSED(PADDING);
    if (*place == 2) return REFUSED(STRUCTURE);
    ++*at;
    if (*place & 2 && unlikely(refusal = listed_part(run, at, end, PREFIX, &x.prefix))) return refusal;
    if (*place & 1 && unlikely(refusal = listed_part(run, at, end, NAMESPACE, &x.namespace))) return refusal;
    if (unlikely(refusal = listed_part(run, at, end, LOCAL, &x.local))) return refusal;
    if (unlikely(refusal = keep_triple(run, table, &x))) *at = place;
    return refusal;
}

/* Behind the octet that announces it; both octets of presence bits are one field. */
NEVER uint32_t head(struct run *run, const uint8_t **at, const uint8_t *end) {
    const uint8_t *p = *at;
    if (p >= end) return REFUSED(TRUNCATED);
    if (*p & 0xE0) return REFUSED(PADDING);
    if (*p & 0x1C) return REFUSED(OPTIONAL_PART);
    if (end - p < 2) return REFUSED(TRUNCATED);
    uint32_t listed = (uint32_t)*p << 8 | p[1], refusal, count;
    if (!listed) return REFUSED(STRUCTURE);
    *at = p + 2;
    for (uint32_t table = 0; table < LOMPHACHIT_COUNTS; table++) {
        if (!(listed >> (LOMPHACHIT_COUNTS - 1 - table) & 1)) continue;
        if ((refusal = listed_count(at, end, &count))) return refusal;
        for (; count; count--)
            if (unlikely(refusal = table < ELEMENT ? listed_string(run, at, end, table) : listed_name(run, at, end, table))) return refusal;
    }
    return 0;
}

#endif
