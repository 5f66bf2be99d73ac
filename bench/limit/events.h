/* The run of the limit over events: once for the write, and once for measuring, which counts octets and puts none (KEEP). A string is looked for by its place, length and form
   first, in a memo, and then by a hash of its octets in UTF-8; a name by the words of its record first. */
#ifndef LIMIT_EVENTS_H
#define LIMIT_EVENTS_H

#include "integers.h"
#include "tables.h"

enum {
    ADDED = 5,   /* octets in UTF-8 of the longest value or chunk that its table gets */
    BESIDE = 64, /* octets of an item beside its strings, and those that a store of sixteen may pass its end by */
    MEMO = 256
};
/* What may come: content, behind attributes, behind declarations, or the first attribute of a list. */
enum { CONTENT, LISTED, DECLARING, LISTING };

struct seen { uint32_t place, kind, number; };
struct run {
    struct strings strings[OTHER + 1];
    uint8_t forms[OTHER + 1][ROWS + 1]; /* of values and the like, once one is not in utf-8 */
    int formed;                         /* one is not */
    struct names names[2];
    uint32_t counts[LOMPHACHIT_COUNTS], longest[OTHER + 1]; /* octets in UTF-8 of a string that a table may have */
    struct seen seen[MEMO];     /* strings that have a number, by place, and by length, form and table */
    uint16_t named[2][MEMO];    /* numbers of names, by the place of the local name; 0 for none */
    uint32_t words[2][MEMO][9]; /* and the words of their strings */
    const uint8_t *text, *end;  /* the text area */
    uint32_t *tables;
    uint8_t *out;
    size_t most;                                   /* octets of it that may be used */
    uint8_t aside[5 * LOMPHACHIT_OCTETS + BESIDE]; /* for an item that may have no room; the places of octets that are only counted */
    uint8_t said[SAID], entry[SAID];               /* what a string in another form says, and what an entry does */
};

/* What is at hand. Everything that has it is inlined, so that it stands in registers. */
struct hand {
    size_t at; /* octets written */
    int half;  /* the second half of the last one is free for an end */
    uint32_t mode, level, root;
    uint32_t lists; /* the bit of an element that has attributes */
};

/* A string: its three words, its octets in UTF-8 where it is spelled, its number and its hash. */
struct string { uint32_t tag, place, length, octets, number, hash; };

/* Identifying strings have no form. */
ALWAYS uint32_t form_in(uint32_t table, const struct string *x) { return table < VALUE ? 0 : form_of(x->tag); }
ALWAYS uint32_t kind_of(uint32_t table, const struct string *x) { return x->length | form_in(table, x) << 20 | table << 28; }
ALWAYS struct seen *seen_at(struct run *run, uint32_t table, const struct string *x) { return &run->seen[(x->place * 5 + x->length + table * 37) % MEMO]; }
ALWAYS void see(struct run *run, uint32_t table, const struct string *x, uint32_t number) { *seen_at(run, table, x) = (struct seen){x->place, kind_of(table, x), number}; }

/* A string in another form, put in UTF-8. */
NEVER uint32_t say(const struct run *run, const struct string *x, uint8_t *out) {
    const uint32_t words[] = {x->tag, x->place, x->length};
    return (uint32_t)lomphachit_say(run->text, words, out);
}

/* Where a string's octets in UTF-8 stand, which was put there if it is in another form, and where loads of them must end. */
ALWAYS const uint8_t *octets_of(const struct run *run, const struct string *x) { return unlikely(is_formed(x->tag)) ? run->said : run->text + x->place; }
ALWAYS const uint8_t *end_of(const struct run *run, const struct string *x) { return unlikely(is_formed(x->tag)) ? run->said + SAID : run->end; }

/* The number of a string, where it or an entry is in another form; 0 for none. */
NEVER uint32_t find_formed(struct run *run, uint32_t table, const uint8_t *at, size_t n, uint32_t hash) {
    const struct strings *x = &run->strings[table];
    uint32_t i = x->first[hash % HASHES];
    for (; i; i = x->next[i]) {
        if (x->hash[i] != hash || x->length[i] != n) continue;
        const uint32_t *row = run->tables + lomphachit_row(table, i);
        const struct string entry = {lomphachit_tag_of(run->formed ? run->forms[table][i] : 0), row[0], row[1], 0, 0, 0};
        const uint8_t *from = run->text + entry.place;
        if (is_formed(entry.tag)) say(run, &entry, run->entry), from = run->entry;
        if (!memcmp(from, at, n)) break;
    }
    return i;
}

/* The number of a stretch in utf-8 that is text, 0 for none, and its hash. */
NEVER uint32_t search(struct run *run, uint32_t table, uint32_t place, uint32_t length, uint32_t *hash) {
    const uint8_t *at = run->text + place;
    const struct string x = {TAG(STRETCH), place, length, length, 0, 0};
    uint64_t other;
    if (built_in(table, at, length)) return 1;
    *hash = hash_of(at, length, run->end, &other);
    int empty = untouched(table, run->counts[table]);
    uint32_t number = unlikely(run->formed) && !empty && table >= VALUE ? find_formed(run, table, at, length, *hash)
                                                      : find_string(&run->strings[table], empty, run->text, at, length, run->end, *hash);
    if (number) see(run, table, &x, number);
    return number;
}

/* The same of one in another form, whose octets in UTF-8 stand in run->said. */
NEVER uint32_t search_said(struct run *run, uint32_t table, struct string *x) {
    uint64_t other;
    x->hash = hash_of(run->said, x->octets, run->said + SAID, &other);
    if (untouched(table, run->counts[table])) memset(run->strings[table].first, 0, sizeof run->strings[table].first);
    uint32_t number = find_formed(run, table, run->said, x->octets, x->hash);
    if (number) see(run, table, x, number);
    return number;
}

/* A row, and in another form the form beside it. */
ALWAYS void put_string_row(struct run *run, uint32_t table, uint32_t number, const struct string *x) {
    uint32_t form = form_in(table, x);
    put_row(run->tables, table, number, x->place, x->length, form);
    if (table < VALUE) return;
    if (unlikely(form) && !run->formed) memset(run->forms, 0, sizeof run->forms), run->formed = 1;
    if (unlikely(run->formed)) run->forms[table][number] = (uint8_t)form;
}

ALWAYS void add(struct run *run, uint32_t table, struct string *x) {
    x->number = ++run->counts[table];
    put_string_row(run, table, x->number, x);
    add_string(&run->strings[table], x->number, x->place, x->octets, x->hash);
    see(run, table, x, x->number);
}

ALWAYS int in_text(const struct run *run, const struct string *x) { return x->length != 0 && (uint64_t)x->place + x->length <= (uint64_t)(run->end - run->text); }

/* Three words of a record as a string in utf-8: 0 where they are none, or the stretch is not in the text area. */
ALWAYS int take(const struct run *run, const uint32_t *words, struct string *x) {
    x->tag = words[0], x->place = words[1], x->length = x->octets = words[2];
    if (likely(x->tag == TAG(STRETCH))) return in_text(run, x);
    return x->tag <= TAG(XML_NAMESPACE) && (x->place | x->length) == 0;
}

/* A value: a stretch in any form or, if it may be, empty. */
ALWAYS int take_value(const struct run *run, const uint32_t *words, int may_be_empty, struct string *x) {
    x->tag = words[0], x->place = words[1], x->length = x->octets = words[2];
    if (likely(x->tag == TAG(STRETCH)) || is_formed(x->tag)) return in_text(run, x);
    return may_be_empty && x->tag == TAG(EMPTY) && (x->place | x->length) == 0;
}

ALWAYS int absent(const uint32_t *words) { return (words[0] | words[1] | words[2]) == 0; }

/* Prefix and namespace, which may be absent; 0 where they are something else. */
ALWAYS int take_space(const struct run *run, const uint32_t *record, struct string *prefix, struct string *namespace) {
    if (!take(run, record + LOMPHACHIT_AT_PREFIX, prefix) || !take(run, record + LOMPHACHIT_AT_NAMESPACE, namespace)) return 0;
    return prefix->tag != TAG(EMPTY) && prefix->tag != TAG(XML_NAMESPACE) && namespace->tag != TAG(EMPTY) && namespace->tag != TAG(XML_PREFIX);
}

struct triple { struct string prefix, namespace, local; };

ALWAYS int take_name(const struct run *run, const uint32_t *record, struct triple *x) {
    if (!take_space(run, record, &x->prefix, &x->namespace) || !take(run, record + LOMPHACHIT_AT_NAME, &x->local)) return 0;
    return x->local.tag == TAG(STRETCH) && (x->prefix.tag == TAG(ABSENT) || x->namespace.tag != TAG(ABSENT));
}

ALWAYS int is_seen(struct run *run, uint32_t table, struct string *x) {
    const struct seen *seen = seen_at(run, table, x);
    x->number = seen->number;
    return seen->place == x->place && seen->kind == kind_of(table, x);
}

/* Finds a string's number, 0 for none; itself it is 0 where the string is not text. */
ALWAYS int look(struct run *run, uint32_t table, struct string *x) {
    if (x->tag != TAG(STRETCH)) {
        x->number = x->tag >= TAG(XML_PREFIX);
        return 1;
    }
    if (is_seen(run, table, x)) return 1;
    if (!is_text(run->text + x->place, x->length, run->end)) return 0;
    x->number = table < VALUE || x->length <= run->longest[table] ? search(run, table, x->place, x->length, &x->hash) : 0;
    return 1;
}

/* The same of one in another form. Its octets in UTF-8 stay in run->said, where it must be spelled. */
NEVER int look_formed(struct run *run, uint32_t table, struct string *x) {
    if (is_seen(run, table, x)) return 1;
    if (!is_text_in(x->tag, run->text + x->place, x->length)) return 0;
    x->octets = say(run, x, run->said);
    x->number = x->octets <= run->longest[table] ? search_said(run, table, x) : 0;
    return 1;
}

/* What a call is lent does not stand in registers, so that it is another string. */
ALWAYS int look_value(struct run *run, uint32_t table, struct string *x) {
    if (likely(!is_formed(x->tag))) return look(run, table, x);
    struct string y = *x;
    int is_text = look_formed(run, table, &y);
    *x = y;
    return is_text;
}

ALWAYS int look_name(struct run *run, struct triple *x) {
    return look(run, PREFIX, &x->prefix) && look(run, NAMESPACE, &x->namespace) && look(run, LOCAL, &x->local);
}

ALWAYS uint8_t *put(uint8_t *to, uint32_t octet) {
    if (KEEP) *to = (uint8_t)octet;
    return to + 1;
}

/* A number of at most 256: two forms are enough, and in the second the first octet has none of it. */
ALWAYS uint8_t *put_number(uint8_t *to, uint32_t first, uint32_t bit, uint32_t number) {
    uint32_t shorter = 1u << (8 - bit);
    number--;
    if (!KEEP) return to + 1 + (number >= shorter);
    return likely(number < shorter) ? put(to, first | number) : put(put(to, first | shorter), number - shorter);
}

/* A length. */
ALWAYS uint8_t *put_length(uint8_t *to, uint32_t first, uint32_t bit, uint32_t length) {
    uint32_t shorter = 1u << (8 - bit), n = length - 1;
    if (!KEEP) return to + (likely(n < shorter) ? 1 : n - shorter < 256 ? 2 : 5);
    if (likely(n < shorter)) return put(to, first | n);
    if (n - shorter < 256) return put(put(to, first | shorter), n - shorter);
    n = __builtin_bswap32(n - shorter - 256);
    to = put(to, first | shorter | shorter >> 1), memcpy(to, &n, sizeof n);
    return to + sizeof n;
}

/* A length and the octets, in UTF-8. Sixteen at once are copied, where they are there. */
ALWAYS uint8_t *spell(uint8_t *to, uint32_t first, uint32_t bit, const uint8_t *from, uint32_t n, const uint8_t *end) {
    to = put_length(to, first, bit, n);
    if (!KEEP) return to + n;
    if (n <= 16 && end - from >= 16) _mm_storeu_si128((void *)to, block(from));
    else memcpy(to, from, n);
    return to + n;
}

ALWAYS uint8_t *spell_identifying(const struct run *run, uint8_t *to, const struct string *x) { return spell(to, 0, 2, run->text + x->place, x->length, run->end); }

/* In the first alphabet of these. */
NEVER uint8_t *spell_packed(uint8_t *to, uint32_t first, uint32_t bit, const uint8_t *octets, uint32_t n, uint32_t some) {
    uint32_t unit = 1u << (9 - bit), length = (n + 1) / 2;
    to = put_length(put(to, first | 2 * unit), some & NUMERIC ? 0 : unit, bit, length);
    return KEEP ? pack(to, octets, n) : to + length;
}

/* In integers, where they are so many octets; algorithms 3, 4 and 5 are for widths 2, 4 and 8. */
NEVER uint8_t *spell_integers(uint8_t *to, uint32_t first, uint32_t bit, const uint8_t *octets, uint32_t n, uint32_t length, uint32_t width) {
    uint32_t unit = 1u << (9 - bit);
    to = put_length(put(to, first | 3 * unit), unit * (1 + (uint32_t)__builtin_ctz(width)), bit, length);
    return KEEP ? put_integers(to, octets, n, width) : to + length;
}

/* In an alphabet, or in integers where these are fewer octets than halves: their characters are in both. */
NEVER uint8_t *spell_shorter(uint8_t *to, uint32_t first, uint32_t bit, const uint8_t *octets, uint32_t n, uint32_t some) {
    uint32_t width, length = some == (NUMERIC | DATES) ? integers(octets, n, &width) : 0;
    if (length && length < (n + 1) / 2) return spell_integers(to, first, bit, octets, n, length, width);
    return spell_packed(to, first, bit, octets, n, some);
}

/* In the form that takes the fewest octets: an alphabet saves some from the fourth character on; from the third, where the length starts at bit 7. Integers save nothing before
   that. */
ALWAYS uint8_t *spell_shortest(const struct run *run, uint8_t *to, uint32_t first, uint32_t bit, const struct string *x) {
    const uint8_t *from = octets_of(run, x);
    uint32_t some = x->octets > (bit == 7 ? 2 : 3) ? alphabets(from, x->octets) : 0;
    return unlikely(some) ? spell_shorter(to, first, bit, from, x->octets, some) : spell(to, first, bit, from, x->octets, end_of(run, x));
}

/* C.13; null where the table is full. */
ALWAYS uint8_t *put_identifying(struct run *run, uint8_t *to, uint32_t table, struct string *x) {
    if (x->number) return put_number(to, 0x80, 2, x->number);
    if (unlikely(run->counts[table] >= ROWS)) return NULL;
    to = spell_identifying(run, to, x);
    add(run, table, x);
    return to;
}

/* A string that its table gets where it is short and there is a row for it. */
ALWAYS uint8_t *put_spelled(struct run *run, uint8_t *to, uint32_t table, uint32_t first, uint32_t adds, uint32_t bit, struct string *x) {
    if (x->octets > ADDED || run->counts[table] >= ROWS) return spell_shortest(run, to, first, bit, x);
    to = spell_shortest(run, to, first | adds, bit, x);
    add(run, table, x);
    return to;
}

/* C.14. */
ALWAYS uint8_t *put_value(struct run *run, uint8_t *to, uint32_t table, struct string *x) {
    if (x->tag == TAG(EMPTY)) return put(to, 0xFF);
    return x->number ? put_number(to, 0x80, 2, x->number) : put_spelled(run, to, table, 0, 0x40, 5, x);
}

ALWAYS uint8_t *put_chunk(struct run *run, uint8_t *to, struct string *x) {
    return x->number ? put_number(to, 0xA0, 4, x->number) : put_spelled(run, to, CHUNK, 0x80, 0x10, 7, x);
}

ALWAYS int held(const struct string *x) { return x->number || x->tag == TAG(ABSENT); }

/* The strings of a name, which its table gets; null where a table is full. */
ALWAYS uint8_t *put_triple(struct run *run, uint8_t *to, uint32_t table, uint32_t first, struct triple *x) {
    uint32_t prefix = x->prefix.tag != TAG(ABSENT), namespace = x->namespace.tag != TAG(ABSENT);
    to = put(to, first | (table == ELEMENT ? 0x3C : 0x78) | prefix << 1 | namespace);
    if (prefix && !(to = put_identifying(run, to, PREFIX, &x->prefix))) return NULL;
    if (namespace && !(to = put_identifying(run, to, NAMESPACE, &x->namespace))) return NULL;
    if (!(to = put_identifying(run, to, LOCAL, &x->local)) || unlikely(run->counts[table] >= ROWS)) return NULL;
    put_row(run->tables, table, ++run->counts[table], x->prefix.number, x->namespace.number, x->local.number);
    add_name(&run->names[table - ELEMENT], run->counts[table], key_of(x->prefix.number, x->namespace.number, x->local.number));
    return to;
}

/* A name whose strings were looked for: by its number, or by its strings. */
NEVER uint8_t *put_name(struct run *run, uint8_t *to, uint32_t table, uint32_t first, const uint32_t *record, struct triple *x, uint32_t slot) {
    struct names *names = &run->names[table - ELEMENT];
    uint32_t number = 0;
    if (run->counts[table] == 0) memset(names->first, 0, sizeof names->first);
    if (held(&x->prefix) && held(&x->namespace) && x->local.number) number = find_name(names, key_of(x->prefix.number, x->namespace.number, x->local.number));
    if (number) to = put_number(to, first, table == ELEMENT ? 3 : 2, number);
    else if (!(to = put_triple(run, to, table, first, x))) return NULL;
    run->named[table - ELEMENT][slot] = (uint16_t)(number ? number : run->counts[table]);
    memcpy(run->words[table - ELEMENT][slot], record + 1, sizeof run->words[0][0]);
    return to;
}

ALWAYS uint32_t slot_of(const uint32_t *record) { return record[LOMPHACHIT_AT_NAME + 1] * 5 % MEMO; }

/* The number of a name that was written from the same words, 0 for none. */
ALWAYS uint32_t known(const struct run *run, uint32_t table, const uint32_t *record) {
    uint32_t slot = slot_of(record), number = run->named[table - ELEMENT][slot];
    const uint32_t *words = run->words[table - ELEMENT][slot];
    if (!number) return 0;
    __m128i same = _mm_and_si128(_mm_cmpeq_epi32(block(words), block(record + 1)), _mm_cmpeq_epi32(block(words + 4), block(record + 5)));
    return _mm_movemask_epi8(same) == 0xFFFF && words[8] == record[9] ? number : 0;
}

/* Where an item of so many octets of strings is written: to its place, or aside where it may have no room. */
ALWAYS uint8_t *room_for(struct run *run, const struct hand *h, size_t strings) { return KEEP && run->most >= h->at + strings + BESIDE ? run->out + h->at : run->aside; }

ALWAYS uint32_t keep(struct run *run, struct hand *h, const uint8_t *from, const uint8_t *behind) {
    size_t n = (size_t)(behind - from);
    if (!KEEP || unlikely(from == run->aside)) {
        if (unlikely(h->at + n > run->most)) return REFUSED(ROOM);
        if (KEEP) memcpy(run->out + h->at, from, n);
    }
    h->at += n;
    return 0;
}

ALWAYS void put_half(struct run *run, struct hand *h) {
    if (KEEP && h->at < run->most) run->out[h->at] = 0xF0;
    h->at++, h->half = 1;
}

/* An end in the second half of the last octet. */
ALWAYS void put_second_half(struct run *run, const struct hand *h) {
    if (KEEP && h->at <= run->most) run->out[h->at - 1] = 0xFF;
}

/* The end of a list of attributes, in front of what is no attribute. */
ALWAYS void close_list(struct run *run, struct hand *h) {
    if (h->mode == LISTED) put_half(run, h), h->mode = CONTENT;
}

/* The bit of an element whose declarations or start are here: its start has an attribute behind it. What is behind declarations and no start is refused. */
ALWAYS uint32_t lists(const uint32_t *record, size_t left) {
    for (; left && record[0] == KIND(NAMESPACE); record += RECORD) left--;
    return left > 1 && record[RECORD] == KIND(ATTRIBUTE) ? 0x40 : 0;
}

/* A second root. Where attributes are due one comes, since the element's bit says what was seen of the next record. */
ALWAYS int no_element_here(const struct hand *h) { return h->mode != DECLARING && h->level == 0 && h->root; }
ALWAYS int too_deep(const struct hand *h) { return h->mode != DECLARING && unlikely(h->level >= DEEPEST); }

ALWAYS void open_element(struct run *run, struct hand *h, const uint32_t *record, size_t left) {
    close_list(run, h);
    h->half = 0;
    if (h->mode != DECLARING) h->lists = lists(record, left);
}

ALWAYS uint32_t declaration(struct run *run, struct hand *h, const uint32_t *record, size_t left) {
    struct string prefix, namespace;
    if (!take_space(run, record, &prefix, &namespace) || !absent(record + LOMPHACHIT_AT_NAME) || !absent(record + LOMPHACHIT_AT_VALUE)) return REFUSED(EVENT);
    if (no_element_here(h)) return REFUSED(EVENT);
    if (!look(run, PREFIX, &prefix) || !look(run, NAMESPACE, &namespace)) return REFUSED(TEXT);
    if (too_deep(h)) return REFUSED(DEPTH);
    open_element(run, h, record, left);
    uint8_t *from = room_for(run, h, prefix.length + namespace.length), *to = from;
    if (h->mode != DECLARING) to = put(to, 0x38 | h->lists);
    to = put(to, 0xCC | (prefix.tag != TAG(ABSENT)) << 1 | (namespace.tag != TAG(ABSENT)));
    if (prefix.tag != TAG(ABSENT) && !(to = put_identifying(run, to, PREFIX, &prefix))) return REFUSED(FULL);
    if (namespace.tag != TAG(ABSENT) && !(to = put_identifying(run, to, NAMESPACE, &namespace))) return REFUSED(FULL);
    h->mode = DECLARING;
    return keep(run, h, from, to);
}

ALWAYS uint32_t start(struct run *run, struct hand *h, const uint32_t *record, size_t left) {
    struct triple x = {0};
    uint32_t number = known(run, ELEMENT, record);
    if (!absent(record + LOMPHACHIT_AT_VALUE) || (!number && !take_name(run, record, &x)) || no_element_here(h)) return REFUSED(EVENT);
    if (!number && !look_name(run, &x)) return REFUSED(TEXT);
    if (too_deep(h)) return REFUSED(DEPTH);
    open_element(run, h, record, left);
    uint8_t *from = room_for(run, h, (size_t)x.prefix.length + x.namespace.length + x.local.length), *to = from;
    uint32_t first = h->lists;
    if (h->mode == DECLARING) to = put(to, 0xF0), first = 0;
    if (number) to = put_number(to, first, 3, number);
    else if (!(to = put_name(run, to, ELEMENT, first, record, &x, slot_of(record)))) return REFUSED(FULL);
    h->level++, h->root = 1, h->mode = h->lists ? LISTING : CONTENT;
    return keep(run, h, from, to);
}

/* A start that was written from the same words before and is due, the commonest of all; 0 where it is something else. */
ALWAYS int start_again(struct run *run, struct hand *h, const uint32_t *record, size_t left) {
    if (h->mode > LISTED || !absent(record + LOMPHACHIT_AT_VALUE)) return 0;
    uint32_t number = known(run, ELEMENT, record);
    if (unlikely(!number || h->at + 4 > run->most || h->level == 0 || h->level >= DEEPEST)) return 0;
    if (h->mode == LISTED) put(run->out + h->at++, 0xF0);
    h->lists = left > 1 && record[RECORD] == KIND(ATTRIBUTE) ? 0x40 : 0;
    h->at = (size_t)(put_number(run->out + h->at, h->lists, 3, number) - run->out);
    h->half = 0, h->level++, h->mode = h->lists ? LISTING : CONTENT;
    return 1;
}

ALWAYS uint32_t attribute(struct run *run, struct hand *h, const uint32_t *record) {
    struct triple x = {0};
    struct string value;
    uint32_t number = known(run, ATTRIBUTE, record);
    if (!number && !take_name(run, record, &x)) return REFUSED(EVENT);
    if (!take_value(run, record + LOMPHACHIT_AT_VALUE, 1, &value)) return REFUSED(EVENT);
    if (h->mode != LISTING && h->mode != LISTED) return REFUSED(EVENT);
    if ((!number && !look_name(run, &x)) || !look_value(run, VALUE, &value)) return REFUSED(TEXT);
    uint8_t *from = room_for(run, h, (size_t)x.prefix.length + x.namespace.length + x.local.length + value.octets), *to = from;
    if (number) to = put_number(to, 0, 2, number);
    else if (!(to = put_name(run, to, ATTRIBUTE, 0, record, &x, slot_of(record)))) return REFUSED(FULL);
    to = put_value(run, to, VALUE, &value);
    h->half = 0, h->mode = LISTED;
    return keep(run, h, from, to);
}

/* A chunk, a comment or an instruction. */
ALWAYS uint32_t other(struct run *run, struct hand *h, const uint32_t *record, uint32_t kind) {
    struct string target = {0}, x;
    if (!absent(record + LOMPHACHIT_AT_PREFIX) || !absent(record + LOMPHACHIT_AT_NAMESPACE)) return REFUSED(EVENT);
    if (kind != KIND(INSTRUCTION) ? !absent(record + LOMPHACHIT_AT_NAME) : !take(run, record + LOMPHACHIT_AT_NAME, &target) || target.tag != TAG(STRETCH)) return REFUSED(EVENT);
    if (!take_value(run, record + LOMPHACHIT_AT_VALUE, kind != KIND(TEXT), &x)) return REFUSED(EVENT);
    if (h->mode > LISTED || (kind == KIND(TEXT) && h->level == 0)) return REFUSED(EVENT);
    if (kind == KIND(INSTRUCTION) && !look(run, TARGET, &target)) return REFUSED(TEXT);
    if (!look_value(run, kind == KIND(TEXT) ? CHUNK : OTHER, &x)) return REFUSED(TEXT);
    close_list(run, h);
    h->half = 0;
    uint8_t *from = room_for(run, h, (size_t)x.octets + target.length), *to = from;
    if (kind == KIND(TEXT)) to = put_chunk(run, to, &x);
    else {
        to = put(to, kind == KIND(INSTRUCTION) ? 0xE1 : 0xE2);
        if (kind == KIND(INSTRUCTION) && !(to = put_identifying(run, to, TARGET, &target))) return REFUSED(FULL);
        to = put_value(run, to, OTHER, &x);
    }
    return keep(run, h, from, to);
}

/* The end of an element: half an octet. */
ALWAYS uint32_t end(struct run *run, struct hand *h, const uint32_t *record) {
    __m128i words = _mm_or_si128(_mm_or_si128(block(record + 1), block(record + 5)), block(record + 9));
    if (_mm_movemask_epi8(_mm_cmpeq_epi32(words, _mm_setzero_si128())) != 0xFFFF) return REFUSED(EVENT);
    if (unlikely(h->mode > LISTED || h->level == 0)) return REFUSED(EVENT);
    close_list(run, h);
    if (!h->half) put_half(run, h);
    else put_second_half(run, h), h->half = 0;
    h->level--;
    return unlikely(h->at > run->most) ? REFUSED(ROOM) : 0;
}

/* One event, which so many records are left with. */
ALWAYS uint32_t event(struct run *run, struct hand *h, const uint32_t *record, size_t left) {
    uint32_t kind = record[0];
    if (kind == KIND(START) && start_again(run, h, record, left)) return 0;
    if (kind == KIND(END)) return end(run, h, record);
    switch (kind) {
    case KIND(NAMESPACE): return declaration(run, h, record, left);
    case KIND(START): return start(run, h, record, left);
    case KIND(ATTRIBUTE): return attribute(run, h, record);
    case KIND(TEXT):
    case KIND(COMMENT):
    case KIND(INSTRUCTION): return other(run, h, record, kind);
    default: return REFUSED(EVENT);
    }
}

/* The end of the document. Where a list is not closed, an element is open or the root is missing. */
ALWAYS uint32_t last(struct run *run, struct hand *h) {
    if (h->level != 0 || !h->root) return REFUSED(EVENT);
    if (!h->half && h->at >= run->most) return REFUSED(ROOM);
    if (KEEP && h->half) run->out[h->at - 1] = 0xFF;
    else if (KEEP) run->out[h->at] = 0xF0;
    h->at += !h->half;
    return 0;
}

#include "given.h"

ALWAYS void begin(struct run *run) {
    static const uint8_t opening[] = {0xE0, 0, 0, 1, 0};
    start_counts(run->counts);
    start_rows(run->tables);
    memset(run->seen, 0, sizeof run->seen);
    memset(run->named, 0, sizeof run->named);
    run->formed = 0;
    run->longest[VALUE] = run->longest[CHUNK] = run->longest[OTHER] = ADDED;
    if (KEEP && run->most >= sizeof opening) memcpy(run->out, opening, sizeof opening);
}

/* The document in lent room of the right lengths, or its length. */
ALWAYS uint64_t events(struct run *run, const uint32_t *given, size_t words, const uint32_t *records, size_t n, uint32_t *counts) {
    uint32_t refusal = 0;
    size_t i = 0, at = 5;
    begin(run);
    if (words && (refusal = head(run, &at, given, words))) return refusal;
    struct hand h = {at, 0, CONTENT, 0, 0, 0};
    for (; i < n; i++)
        if (unlikely(refusal = event(run, &h, records + RECORD * i, n - i))) break;
    if (!refusal) refusal = last(run, &h);
    if (refusal) return i * 32 + refusal;
    leave_tables(run->tables, counts, run->counts);
    return (uint64_t)h.at << 32;
}

/* What the lengths of the text area and of what is lent decide. */
ALWAYS uint64_t by_lengths(size_t text_len, size_t tables_len, size_t counts_len) {
    return text_len > LOMPHACHIT_OCTETS ? REFUSED(SIZE) : tables_len != LOMPHACHIT_TABLES || counts_len != LOMPHACHIT_COUNTS ? REFUSED(ROOM) : 0;
}

/* A refusal blanks tables and counts. */
ALWAYS uint64_t leave(uint64_t answer, uint32_t *tables, size_t tables_len, uint32_t *counts, size_t counts_len) {
    if (!lomphachit_refusal_of(answer)) return answer;
    memset(tables, 0, tables_len * sizeof *tables);
    memset(counts, 0, counts_len * sizeof *counts);
    return answer;
}

#endif
