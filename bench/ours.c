/* Calls the archive on one document so many times, or the limit (bench/build), for a count of instructions from outside. All room is lent exactly as long as the document needs it, so that no
   blanking of unused room is counted: a record for each event, and for the writer as many octets as were measured before, which need not be those of the document: it may have strings in
   another form than ours. A document with a head is measured and written with the tables that it has, so that its body must add nothing to them.

   usage: ours check|read|write|measure CALLS < octets    # a digest of what is left in the lent room on standard output
          ours records 0 < octets                         # the words of the events' records instead */
#include "../include/lomphachit.h"
#include "given.h"
#include <stdio.h>
#include <stdlib.h>

static uint8_t document[LOMPHACHIT_OCTETS + 1], out[LOMPHACHIT_OCTETS];
static uint32_t records[LOMPHACHIT_RECORD * LOMPHACHIT_EVENTS], tables[LOMPHACHIT_TABLES], counts[LOMPHACHIT_COUNTS], given[GIVEN];
static size_t given_words, room;

static uint64_t read_into(size_t n, size_t words) { return lomphachit_read(document, n, records, words, tables, LOMPHACHIT_TABLES, counts, LOMPHACHIT_COUNTS); }

static uint64_t measure_from(size_t words, size_t n) {
    return lomphachit_measure(given, given_words, records, words, document, n, tables, LOMPHACHIT_TABLES, counts, LOMPHACHIT_COUNTS);
}

static uint64_t write_from(size_t words, size_t n) {
    return lomphachit_write(given, given_words, records, words, document, n, out, room, tables, LOMPHACHIT_TABLES, counts, LOMPHACHIT_COUNTS);
}

/* 0 where the document is accepted with so many events, or measured or written with as many octets as before. */
static uint64_t call(char what, size_t n, size_t words) {
    if (what == 'c') return lomphachit_check(document, n);
    if (what == 'r') return read_into(n, words) ^ (uint64_t)(words / LOMPHACHIT_RECORD) << 32;
    return (what == 'm' ? measure_from(words, n) : write_from(words, n)) ^ (uint64_t)room << 32;
}

/* FNV-1a over words. */
static uint32_t digest(uint32_t h, const uint32_t *words, size_t n) {
    for (size_t i = 0; i < n; i++) h = (h ^ words[i]) * 16777619u;
    return h;
}

static uint32_t digest_of_room(size_t words) {
    uint32_t h = digest(digest(digest(2166136261u, records, words), tables, LOMPHACHIT_TABLES), counts, LOMPHACHIT_COUNTS);
    for (size_t i = 0; i < room; i++) h = (h ^ out[i]) * 16777619u;
    return h;
}

int main(int argc, char **argv) {
    if (argc != 3) return 2;
    size_t n = fread(document, 1, sizeof document, stdin);
    uint64_t first = read_into(n, sizeof records / sizeof *records), bad = (uint32_t)first;
    size_t words = LOMPHACHIT_RECORD * (size_t)lomphachit_count_of(first);
    if (document[4]) given_words = given_of(tables, counts, given);
    if (argv[1][0] == 'w' || argv[1][0] == 'm') room = lomphachit_count_of(measure_from(words, n));
    if ((argv[1][0] == 'w' || argv[1][0] == 'm') && !room) return 1;
    for (long i = 0; i < atol(argv[2]); i++) bad |= call(argv[1][0], n, words);
    if (argv[1][2] == 'c') fwrite(records, sizeof *records, words, stdout);
    else printf("%u\n", digest_of_room(words));
    return bad != 0;
}
