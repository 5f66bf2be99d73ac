/* What the limit keeps of a document's tables: counts, and an index by hash, all on the stack. The first entry that is looked for clears the index of its table. */
#ifndef LIMIT_TABLES_H
#define LIMIT_TABLES_H

#include "forms.h"

enum {
    RECORD = LOMPHACHIT_RECORD,
    STRINGS = LOMPHACHIT_AT_PLACE - 1, /* words of a record's strings, between its kind and its place */
    ROWS = LOMPHACHIT_ROWS,
    HASHES = 256,
    DEEPEST = 32,     /* elements within each other */
    HIGHEST = 1 << 20 /* number of any form */
};

/* The words of include/lomphachit.h, without the project's name in front. */
#define KIND(x) LOMPHACHIT_KIND_##x
#define REFUSED(x) LOMPHACHIT_REFUSED_##x
enum {
    PREFIX = LOMPHACHIT_TABLE_PREFIX,
    NAMESPACE = LOMPHACHIT_TABLE_NAMESPACE_NAME,
    LOCAL = LOMPHACHIT_TABLE_LOCAL_NAME,
    TARGET = LOMPHACHIT_TABLE_OTHER_NCNAME,
    URI = LOMPHACHIT_TABLE_OTHER_URI,
    VALUE = LOMPHACHIT_TABLE_ATTRIBUTE_VALUE,
    CHUNK = LOMPHACHIT_TABLE_CONTENT_CHARACTER_CHUNK,
    OTHER = LOMPHACHIT_TABLE_OTHER_STRING,
    ELEMENT = LOMPHACHIT_TABLE_ELEMENT_NAME,
    ATTRIBUTE = LOMPHACHIT_TABLE_ATTRIBUTE_NAME
};

static const char XML[] = "xml", XML_NAMESPACE[] = "http://www.w3.org/XML/1998/namespace";

/* Entries of one hash are a chain by number, 0 at its end. A string has its place and its octets in UTF-8 beside it, since a check is lent no rows. */
struct strings { uint16_t first[HASHES], next[ROWS + 1]; uint32_t hash[ROWS + 1], place[ROWS + 1], length[ROWS + 1]; };
struct names { uint16_t first[HASHES], next[ROWS + 1]; uint32_t key[ROWS + 1]; };

ALWAYS void start_counts(uint32_t *counts) {
    memset(counts, 0, LOMPHACHIT_COUNTS * sizeof *counts);
    counts[PREFIX] = counts[NAMESPACE] = 1;
}

/* Whether a table has only what it starts with. */
ALWAYS int untouched(uint32_t table, uint32_t count) { return count == (table <= NAMESPACE); }

ALWAYS int built_in(uint32_t table, const uint8_t *at, size_t n) {
    if (table == PREFIX) return n == sizeof XML - 1 && !memcmp(at, XML, n);
    return table == NAMESPACE && n == sizeof XML_NAMESPACE - 1 && !memcmp(at, XML_NAMESPACE, n);
}

/* The number of the string, which is not built in; 0 for none. */
ALWAYS uint32_t find_string(struct strings *x, int empty, const uint8_t *text, const uint8_t *at, size_t n, const uint8_t *end, uint32_t hash) {
    if (empty) memset(x->first, 0, sizeof x->first);
    uint32_t i = x->first[hash % HASHES];
    while (i && (x->hash[i] != hash || x->length[i] != n || !same(text + x->place[i], at, n, end))) i = x->next[i];
    return i;
}

ALWAYS void add_string(struct strings *x, uint32_t number, uint32_t place, size_t n, uint32_t hash) {
    x->hash[number] = hash, x->place[number] = place, x->length[number] = (uint32_t)n;
    x->next[number] = x->first[hash % HASHES], x->first[hash % HASHES] = (uint16_t)number;
}

/* The numbers of a name's three strings, 0 for none, as one. */
ALWAYS uint32_t key_of(uint32_t prefix, uint32_t namespace, uint32_t local) { return prefix | namespace << 9 | local << 18; }
ALWAYS uint32_t key_hash(uint32_t key) { return key * (uint32_t)(MIX >> 32) >> 24; }

ALWAYS uint32_t find_name(const struct names *x, uint32_t key) {
    uint32_t i = x->first[key_hash(key)];
    while (i && x->key[i] != key) i = x->next[i];
    return i;
}

ALWAYS void add_name(struct names *x, uint32_t number, uint32_t key) {
    uint32_t hash = key_hash(key);
    x->key[number] = key, x->next[number] = x->first[hash], x->first[hash] = (uint16_t)number;
}

ALWAYS void put_row(uint32_t *tables, uint32_t table, uint32_t number, uint32_t a, uint32_t b, uint32_t c) {
    uint32_t *row = tables + lomphachit_row(table, number);
    row[0] = a, row[1] = b, row[2] = c;
}

/* The rows that a table starts with are all 0. */
ALWAYS void start_rows(uint32_t *tables) { put_row(tables, PREFIX, 1, 0, 0, 0), put_row(tables, NAMESPACE, 1, 0, 0, 0); }

/* Hands the counts out, and blanks the rows that no entry has. */
ALWAYS void leave_tables(uint32_t *tables, uint32_t *lent, const uint32_t *counts) {
    memcpy(lent, counts, LOMPHACHIT_COUNTS * sizeof *counts);
    for (size_t i = 0; i < LOMPHACHIT_COUNTS; i++)
        memset(tables + lomphachit_row(i, counts[i] + 1), 0, LOMPHACHIT_ROW * (ROWS - counts[i]) * sizeof *tables);
}

#endif
