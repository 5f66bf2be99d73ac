/* The run of the limit over the items of a document: once for the check, which keeps nothing, and once for the read (KEEP). An item is a field too: it moves the place behind
   itself and gives 0; or it gives a refusal, and the place is that of the refusal. */
#ifndef LIMIT_ITEMS_H
#define LIMIT_ITEMS_H

#include "head.h"

/* What is at hand. Everything that has it is inlined, so that it stands in registers. */
struct hand {
    const uint8_t *at, *end;
    uint32_t *record; /* of the next event */
    uint32_t level;   /* open elements */
};

/* Bits 3 to 8 of a start's octet: a number's longest form, declarations, and a name in its strings. Those between have padding that is not 0. */
enum { FAREST = 0x30, DECLARING = 0x38, SPELLED = 0x3C };

/* What is lent to a read. */
struct room { uint32_t *records, *tables, *counts; size_t most; };

ALWAYS int no_room(const struct run *run, const struct hand *h) { return KEEP && unlikely(h->record == run->full); }

/* A refusal at an earlier place. */
ALWAYS uint32_t back(struct hand *h, const uint8_t *place, uint32_t refusal) {
    h->at = place;
    return refusal;
}

/* Records. Four words at once are blanked or copied, so that some are stored twice. */
ALWAYS void blank(uint32_t *words) { _mm_storeu_si128((void *)words, _mm_setzero_si128()); }

/* A record's first word and its last: its kind, and the octet that it was read at. Then it is the next one's turn. */
ALWAYS void put_record(const struct run *run, struct hand *h, uint32_t kind, const uint8_t *place) {
    h->record[0] = kind, h->record[LOMPHACHIT_AT_PLACE] = (uint32_t)(place - run->document);
    h->record += RECORD;
}

ALWAYS void put_name(const struct run *run, struct hand *h, uint32_t kind, const uint8_t *place, uint32_t table, uint32_t number) {
    if (!KEEP) return;
    const uint32_t *words = run->words[table - ELEMENT][number - 1];
    for (int i = 0; i < STRINGS; i += 4) _mm_storeu_si128((void *)(h->record + 1 + i), block(words + i));
    put_record(run, h, kind, place);
}

/* An event that has a value only. */
ALWAYS void put_value(const struct run *run, struct hand *h, uint32_t kind, const uint8_t *place, const struct string *x) {
    if (!KEEP) return;
    blank(h->record + 1), blank(h->record + 5), blank(h->record + 6);
    put_string(h->record + LOMPHACHIT_AT_VALUE, x);
    put_record(run, h, kind, place);
}

/* A start by its number; `behind` is where the next field stands. */
ALWAYS uint32_t start(const struct run *run, struct hand *h, uint32_t number, const uint8_t *behind) {
    if (unlikely(number > run->counts[ELEMENT])) return REFUSED(INDEX);
    if (unlikely(h->level >= DEEPEST)) return REFUSED(DEPTH);
    if (no_room(run, h)) return REFUSED(ROOM);
    put_name(run, h, KIND(START), h->at, ELEMENT, number);
    h->level++, h->at = behind;
    return 0;
}

/* A start by any number. */
ALWAYS uint32_t far_start(const struct run *run, struct hand *h) {
    const uint8_t *behind = h->at;
    uint32_t number, refusal = number_3_4(&behind, h->end, 3, &number);
    return unlikely(refusal) ? refusal : start(run, h, number, behind);
}

/* A start in its strings. */
ALWAYS uint32_t spelled_start(struct run *run, struct hand *h) {
    const uint8_t *place = h->at;
    uint32_t refusal = triple(run, &h->at, h->end, ELEMENT);
    if (unlikely(refusal)) return refusal;
    if (no_room(run, h)) return back(h, place, REFUSED(ROOM));
    put_name(run, h, KIND(START), place, ELEMENT, run->counts[ELEMENT]);
    h->level++;
    return 0;
}

/* A namespace declaration. */
ALWAYS uint32_t declaration(struct run *run, struct hand *h) {
    struct string prefix = NO_STRING, namespace = NO_STRING;
    const uint8_t *place = h->at;
    uint32_t refusal;
    if (*place > 0xF0) return REFUSED(PADDING);
    if (*place >> 2 != 0x33) return REFUSED(CODE);
    h->at++;
    if (*place & 2 && (refusal = identifying(run, &h->at, h->end, PREFIX, &prefix))) return refusal;
    if (*place & 1 && (refusal = identifying(run, &h->at, h->end, NAMESPACE, &namespace))) return refusal;
    if (no_room(run, h)) return back(h, place, REFUSED(ROOM));
    if (!KEEP) return 0;
    put_string(h->record + LOMPHACHIT_AT_PREFIX, &prefix), put_string(h->record + LOMPHACHIT_AT_NAMESPACE, &namespace);
    blank(h->record + LOMPHACHIT_AT_NAME), blank(h->record + LOMPHACHIT_AT_NAME + 2);
    put_record(run, h, KIND(NAMESPACE), place);
    return 0;
}

/* A start with declarations in front. The octet of its name has neither their bit nor that of attributes. */
ALWAYS uint32_t declaring_start(struct run *run, struct hand *h) {
    h->at++;
    if (h->at < h->end && *h->at == 0xF0) return REFUSED(STRUCTURE);
    for (;;) {
        uint32_t refusal = REFUSED(TRUNCATED);
        if (unlikely(h->at >= h->end)) return refusal;
        if (*h->at == 0xF0) break;
        if (unlikely(refusal = declaration(run, h))) return refusal;
    }
    h->at++;
    if (unlikely(h->at >= h->end)) return REFUSED(TRUNCATED);
    uint32_t octet = *h->at;
    if ((octet >> 2 & 0xF) == 0xE) return REFUSED(CODE);
    if (octet >> 6) return REFUSED(PADDING);
    return octet >= SPELLED ? spelled_start(run, h) : far_start(run, h);
}

/* A start that is not numbered. */
ALWAYS uint32_t other_start(struct run *run, struct hand *h) {
    uint32_t octet = *h->at & 0x3F;
    if (octet > DECLARING && octet < SPELLED) return REFUSED(PADDING);
    if (octet == 0x3E) return REFUSED(STRUCTURE);
    if (unlikely(h->level >= DEEPEST)) return REFUSED(DEPTH);
    return octet == DECLARING ? declaring_start(run, h) : spelled_start(run, h);
}

ALWAYS uint32_t attribute(struct run *run, struct hand *h) {
    const uint8_t *place = h->at;
    struct string x;
    uint32_t octet = *place, number, refusal;
    if (octet < 0x78) {
        if (unlikely(refusal = number_2(&h->at, h->end, &number))) return refusal;
        if (unlikely(number > run->counts[ATTRIBUTE])) return back(h, place, REFUSED(INDEX));
    } else {
        if (octet & 0x80) return REFUSED(CODE);
        if (octet >= 0x7C) return REFUSED(PADDING);
        if (unlikely(refusal = triple(run, &h->at, h->end, ATTRIBUTE))) return refusal;
        number = run->counts[ATTRIBUTE];
    }
    if (unlikely(refusal = value(run, &h->at, h->end, VALUE, &x))) return refusal;
    if (no_room(run, h)) return back(h, place, REFUSED(ROOM));
    if (KEEP) put_name(run, h, KIND(ATTRIBUTE), place, ATTRIBUTE, number), put_string(h->record - RECORD + LOMPHACHIT_AT_VALUE, &x);
    return 0;
}

/* Attributes, one at least; then at the octet of their end, whose other half is looked at. */
ALWAYS uint32_t attributes(struct run *run, struct hand *h) {
    uint32_t refusal;
    if (h->at < h->end && *h->at >= 0xF0) return REFUSED(STRUCTURE);
    do {
        if (unlikely(h->at >= h->end)) return REFUSED(TRUNCATED);
        if (unlikely(refusal = attribute(run, h))) return refusal;
    } while (h->at >= h->end || *h->at < 0xF0);
    return *h->at == 0xF0 || *h->at == 0xFF ? 0 : REFUSED(PADDING);
}

ALWAYS uint32_t chunk(struct run *run, struct hand *h) {
    const uint8_t *place = h->at;
    struct string x;
    uint32_t refusal = spelled(run, &h->at, h->end, CHUNK, 7, *place & 0x10, &x);
    if (unlikely(refusal)) return refusal;
    if (no_room(run, h)) return back(h, place, REFUSED(ROOM));
    put_value(run, h, KIND(TEXT), place, &x);
    return 0;
}

ALWAYS uint32_t numbered_chunk(const struct run *run, struct hand *h, uint32_t number, const uint8_t *behind) {
    struct string x;
    uint32_t refusal = numbered(run, CHUNK, number, &x);
    if (unlikely(refusal)) return refusal;
    if (no_room(run, h)) return REFUSED(ROOM);
    put_value(run, h, KIND(TEXT), h->at, &x);
    h->at = behind;
    return 0;
}

ALWAYS uint32_t far_chunk(const struct run *run, struct hand *h) {
    const uint8_t *behind = h->at;
    uint32_t number, refusal = number_3_4(&behind, h->end, 4, &number);
    return unlikely(refusal) ? refusal : numbered_chunk(run, h, number, behind);
}

ALWAYS uint32_t instruction(struct run *run, struct hand *h) {
    const uint8_t *place = h->at++;
    struct string target, content;
    uint32_t refusal = identifying(run, &h->at, h->end, TARGET, &target);
    if (likely(!refusal)) refusal = value(run, &h->at, h->end, OTHER, &content);
    if (unlikely(refusal)) return refusal;
    if (no_room(run, h)) return back(h, place, REFUSED(ROOM));
    put_value(run, h, KIND(INSTRUCTION), place, &content);
    if (KEEP) put_string(h->record - RECORD + LOMPHACHIT_AT_NAME, &target);
    return 0;
}

ALWAYS uint32_t comment(struct run *run, struct hand *h) {
    const uint8_t *place = h->at++;
    struct string x;
    uint32_t refusal = value(run, &h->at, h->end, OTHER, &x);
    if (unlikely(refusal)) return refusal;
    if (no_room(run, h)) return back(h, place, REFUSED(ROOM));
    put_value(run, h, KIND(COMMENT), place, &x);
    return 0;
}

/* The end of an element, half an octet. */
ALWAYS uint32_t end(const struct run *run, struct hand *h) {
    if (no_room(run, h)) return REFUSED(ROOM);
    if (KEEP) {
        blank(h->record + 1), blank(h->record + 5), blank(h->record + 9);
        put_record(run, h, KIND(END), h->at);
    }
    h->level--;
    return 0;
}

/* Whether an octet outside of elements begins the root, an instruction or a comment. */
ALWAYS int begins(struct run *run, uint32_t octet) {
    if (octet < 0x80 && !run->root) return run->root = 1;
    return octet == 0xE1 || octet == 0xE2;
}

/* What another octet there is refused for, that is not the end. */
ALWAYS uint32_t refused_outside(const struct run *run, uint32_t octet) {
    uint32_t name = octet & 0x3F;
    if (octet < 0x80) return name > FAREST && name < SPELLED && name != DECLARING ? REFUSED(PADDING) : REFUSED(STRUCTURE);
    if (octet < 0xF0) return octet >> 2 == 0x31 ? REFUSED(FORMAT) : REFUSED(CODE);
    return run->root ? REFUSED(PADDING) : REFUSED(STRUCTURE);
}

/* A run that stands behind the opening, where a head may be. */
ALWAYS struct hand begin(struct run *run, const uint8_t *octets, size_t n, const struct room *room) {
    run->document = octets, run->root = 0;
    start_counts(run->counts);
    if (!KEEP) return (struct hand){octets + 5, octets + n, NULL, 0};
    run->tables = room->tables, run->full = room->records + room->most * RECORD;
    start_rows(run->tables);
    return (struct hand){octets + 5, octets + n, room->records, 0};
}

/* The document is accepted, with so many events. */
ALWAYS uint64_t finish(const struct run *run, const struct hand *h, const struct room *room) {
    if (!KEEP) return 0;
    leave_tables(run->tables, room->counts, run->counts);
    return (uint64_t)(h->record - room->records) / RECORD << 32;
}

/* Octets are told apart by a jump through a table at the end of each item: labels of gcc, since functions would save and load registers. What stands outside of elements is told
   apart by itself, so that no item inside tests the root or the level. */
#define DO(item) if (unlikely(refusal = (item))) goto refused
#define MORE if (unlikely(h.at >= h.end)) goto truncated
#define NEXT do { MORE; goto *inside[*h.at]; } while (0)
static uint64_t items(const uint8_t *octets, size_t n, const struct room *room) {
    static const void *const inside[256] = {
        [0x00 ... 0x1F] = &&element, [0x20 ... 0x37] = &&far_element, [0x38 ... 0x3F] = &&other_element, [0x40 ... 0x5F] = &&listing_element, [0x60 ... 0x77] = &&far_element,
        [0x78 ... 0x7F] = &&other_element, [0x80 ... 0x9F] = &&chunk, [0xA0 ... 0xAF] = &&numbered_chunk, [0xB0 ... 0xBF] = &&far_chunk, [0xC0 ... 0xE0] = &&no_item,
        [0xE1] = &&instruction, [0xE2] = &&comment, [0xE3 ... 0xEF] = &&no_item, [0xF0] = &&end_and_padding, [0xF1 ... 0xFE] = &&end_and_other, [0xFF] = &&two_ends};
    struct run run;
    struct hand h = begin(&run, octets, n, room);
    uint32_t refusal, octet;
    if (unlikely(octets[4])) {
        const uint8_t *at = h.at;
        refusal = head(&run, &at, h.end), h.at = at;
        if (refusal) goto refused;
    }
outside: MORE;
    if (begins(&run, *h.at)) goto *inside[*h.at];
    if (*h.at == 0xF0 && run.root) goto finish;
    refusal = refused_outside(&run, *h.at); goto refused;
element: DO(start(&run, &h, *h.at + 1, h.at + 1)); NEXT;
listing_element: DO(start(&run, &h, (*h.at & 0x1F) + 1, h.at + 1)); goto attributes;
far_element: octet = *h.at; DO(far_start(&run, &h)); if (octet & 0x40) goto attributes; NEXT;
other_element: octet = *h.at; DO(other_start(&run, &h)); if (octet & 0x40) goto attributes; NEXT;
chunk: DO(chunk(&run, &h)); NEXT;
numbered_chunk: DO(numbered_chunk(&run, &h, (*h.at & 0xF) + 1, h.at + 1)); NEXT;
far_chunk: DO(far_chunk(&run, &h)); NEXT;
instruction: DO(instruction(&run, &h)); if (!h.level) goto outside; NEXT;
comment: DO(comment(&run, &h)); if (!h.level) goto outside; NEXT;
no_item: refusal = *h.at >> 2 == 0x32 ? REFUSED(FORMAT) : REFUSED(CODE); goto refused;
end_and_other: DO(end(&run, &h)); goto padding;
end_and_padding: DO(end(&run, &h)); h.at++;
behind_padding: MORE;
    if (unlikely(*h.at >= 0xF0)) goto padding; /* another end would have stood in place of the padding */
    if (unlikely(!h.level)) goto outside;
    goto *inside[*h.at];
two_ends: DO(end(&run, &h));
second_end: if (unlikely(!h.level)) goto finish;
    DO(end(&run, &h)); h.at++; if (unlikely(!h.level)) goto outside; NEXT;
attributes: DO(attributes(&run, &h)); if (*h.at == 0xFF) goto second_end; h.at++; goto behind_padding;
finish: if (++h.at == h.end) return finish(&run, &h, room);
    refusal = REFUSED(STRUCTURE); goto refused;
padding: refusal = REFUSED(PADDING); goto refused;
truncated: refusal = REFUSED(TRUNCATED);
refused: return (uint32_t)(h.at - octets) * 32 + refusal;
}

/* The header and the octet behind it. */
ALWAYS uint32_t opening(const uint8_t *octets, size_t n) {
    if (n == 0 || n > LOMPHACHIT_OCTETS) return REFUSED(SIZE);
    if (n < 4) return REFUSED(TRUNCATED);
    if (four(octets) != 0x010000E0) return REFUSED(HEADER);
    if (n < 5) return 4 * 32 + REFUSED(TRUNCATED);
    if (octets[4] & 0x80) return 4 * 32 + REFUSED(PADDING);
    return octets[4] & 0x5F ? 4 * 32 + REFUSED(OPTIONAL_PART) : 0;
}

#endif
