/* Given tables for bench/ours.c and bench/hold.c: what a read left in the tables, as words for a write. */
#ifndef GIVEN_H
#define GIVEN_H
#include "../include/lomphachit.h"

enum { GIVEN = LOMPHACHIT_COUNTS + LOMPHACHIT_TABLES };

/* How many words they are. The built-in entries are not among them. */
static size_t given_of(const uint32_t *tables, const uint32_t *counts, uint32_t *given) {
    size_t n = LOMPHACHIT_COUNTS;
    for (uint32_t t = 0; t < LOMPHACHIT_COUNTS; t++) {
        uint32_t built_in = t <= LOMPHACHIT_TABLE_NAMESPACE_NAME;
        given[t] = counts[t] - built_in;
        for (uint32_t i = 1 + built_in; i <= counts[t]; i++) {
            const uint32_t *row = tables + lomphachit_row(t, i);
            if (t < LOMPHACHIT_TABLE_ELEMENT_NAME) given[n++] = lomphachit_tag_of(row[2]), given[n++] = row[0], given[n++] = row[1];
            else given[n++] = row[0], given[n++] = row[1], given[n++] = row[2];
        }
    }
    return n;
}

#endif
