/* Holds the limit against the archive: the same answers, and the same words and octets in room that was full of other things, on the documents given and on seeded changes of
   each; on all tails of one and two octets behind the starts given; and on the lists of events that the documents give, or that are given, and seeded changes of these, with
   the tables that the document has, too. Each list that is written is measured before, and each is written with other places, which change
   no answer.

   usage: hold CHANGES SEED < inputs          an input is a letter and stretches, each its length in 4 octets and its octets: `d` and a document, `t` and a start, or `l`, a text
                                              area, given words and records

   Prints the counts, and the first differences; the status is 1 where there is one. */
#include "../include/lomphachit.h"
#include "given.h"
#include "limit/limit.h"
#include <stdio.h>
#include <stdlib.h>
#include <string.h>

enum { RECORD = LOMPHACHIT_RECORD, LONGEST = 2 * LOMPHACHIT_OCTETS, MOST = LOMPHACHIT_EVENTS + 64, BEHIND = 16, SHOWN = 10, LIST_SHARE = 2, FORMS = 7 };

/* Room with some more behind it, which nobody may touch. */
struct room {
    uint32_t records[RECORD * MOST + BEHIND], tables[LOMPHACHIT_TABLES + BEHIND], counts[LOMPHACHIT_COUNTS + BEHIND];
    uint8_t out[LONGEST + BEHIND];
};
static struct room ours, limits;
static uint32_t list[RECORD * MOST], changed_list[RECORD * MOST];
/* Given words, of which the list that is held has the first so many. */
static uint32_t given[2 * GIVEN], changed_given[2 * GIVEN];
static size_t given_words;
static uint8_t document[LONGEST], changed_document[LONGEST];
static unsigned long checks, reads, writes, measures, differences, read_answers[32], write_answers[32], measure_answers[32];

static uint64_t seed;
static uint64_t dice(uint64_t sides) {
    seed ^= seed << 13, seed ^= seed >> 7, seed ^= seed << 17;
    return seed % sides;
}

static void differs(const char *call, const uint8_t *octets, size_t n, size_t room, uint64_t our_answer, uint64_t limit_answer) {
    if (differences++ >= SHOWN) return;
    printf("hold: a %s differs: room %zu, ours %llx, limit %llx, octets ", call, room, (unsigned long long)our_answer, (unsigned long long)limit_answer);
    for (size_t i = 0; i < n && i < 200; i++) printf("%02x", octets[i]);
    printf("%s\n", n > 200 ? ".." : "");
}

static void dirty(struct room *room, size_t words, size_t octets) {
    memset(room->records, 0xAB, (words + BEHIND) * sizeof *room->records);
    memset(room->tables, 0xCD, sizeof room->tables);
    memset(room->counts, 0xEF, sizeof room->counts);
    memset(room->out, 0x99, octets + BEHIND);
}

static int same_room(size_t words, size_t octets) {
    return !memcmp(ours.records, limits.records, (words + BEHIND) * sizeof *ours.records) && !memcmp(ours.tables, limits.tables, sizeof ours.tables) &&
           !memcmp(ours.counts, limits.counts, sizeof ours.counts) && !memcmp(ours.out, limits.out, octets + BEHIND);
}

static uint32_t hold_check(const uint8_t *octets, size_t n) {
    uint32_t a = lomphachit_check(octets, n), b = limit_check(octets, n);
    checks++;
    if (a != b) differs("check", octets, n, 0, a, b);
    return a;
}

static uint64_t hold_read(const uint8_t *octets, size_t n, size_t words, size_t tables, size_t counts) {
    dirty(&ours, words, 0), dirty(&limits, words, 0);
    uint64_t a = lomphachit_read(octets, n, ours.records, words, ours.tables, tables, ours.counts, counts);
    uint64_t b = limit_read(octets, n, limits.records, words, limits.tables, tables, limits.counts, counts);
    reads++, read_answers[lomphachit_refusal_of(a)]++;
    if (a != b || !same_room(words, 0)) differs("read", octets, n, words, a, b);
    return a;
}

static void hold_measure(const uint32_t *g, size_t g_words, const uint32_t *records, size_t words, const uint8_t *text, size_t n, size_t tables, size_t counts) {
    dirty(&ours, 0, 0), dirty(&limits, 0, 0);
    uint64_t a = lomphachit_measure(g, g_words, records, words, text, n, ours.tables, tables, ours.counts, counts);
    uint64_t b = limit_measure(g, g_words, records, words, text, n, limits.tables, tables, limits.counts, counts);
    measures++, measure_answers[lomphachit_refusal_of(a)]++;
    if (a != b || !same_room(0, 0)) differs("measuring", text, n, 0, a, b);
}

static uint64_t hold_write(const uint32_t *g, size_t g_words, const uint32_t *records, size_t words, const uint8_t *text, size_t n, size_t room, size_t tables, size_t counts) {
    dirty(&ours, 0, room), dirty(&limits, 0, room);
    uint64_t a = lomphachit_write(g, g_words, records, words, text, n, ours.out, room, ours.tables, tables, ours.counts, counts);
    uint64_t b = limit_write(g, g_words, records, words, text, n, limits.out, room, limits.tables, tables, limits.counts, counts);
    writes++, write_answers[lomphachit_refusal_of(a)]++;
    if (a != b || !same_room(0, room)) differs("write", text, n, room, a, b);
    return a;
}

static uint64_t write_in(const uint32_t *records, size_t words, const uint8_t *text, size_t n, size_t room) {
    return hold_write(given, given_words, records, words, text, n, room, LOMPHACHIT_TABLES, LOMPHACHIT_COUNTS);
}

/* One change of given tables: a word, an entry over another, a form, a string a little shorter or longer. */
static void change_given(uint32_t *g, size_t words, size_t n) {
    size_t entries = (words - LOMPHACHIT_COUNTS) / LOMPHACHIT_ROW;
    uint32_t *entry = g + LOMPHACHIT_COUNTS + LOMPHACHIT_ROW * dice(entries);
    switch (dice(7)) {
    case 5: entry[0] = lomphachit_tag_of((uint32_t)dice(FORMS)); break;
    case 0: g[dice(words)] = (uint32_t)dice(9); break;
    case 1: g[dice(words)]++; break;
    case 2: memcpy(entry, g + LOMPHACHIT_COUNTS + LOMPHACHIT_ROW * dice(entries), LOMPHACHIT_ROW * sizeof *entry); break;
    case 3: entry[dice(LOMPHACHIT_ROW)] = (uint32_t)dice(n + 3); break;
    case 4: if (entry[2] > 1) entry[2] -= 1 + (uint32_t)dice(entry[2] - 1); break;
    default: entry[1 + dice(2)] += (uint32_t)dice(3) - 1;
    }
}

/* A list with changed given words, or with more or fewer of them. */
static void write_with_changed(const uint32_t *records, size_t words, const uint8_t *text, size_t n) {
    size_t g_words = given_words;
    memcpy(changed_given, given, sizeof given);
    for (size_t many = dice(3); many; many--) change_given(changed_given, given_words, n);
    if (!dice(8)) g_words = dice(2) ? dice(given_words) : given_words + dice(4);
    hold_measure(changed_given, g_words, records, words, text, n, LOMPHACHIT_TABLES, LOMPHACHIT_COUNTS);
    hold_write(changed_given, g_words, records, words, text, n, dice(4) ? LOMPHACHIT_OCTETS : dice(n + 2), LOMPHACHIT_TABLES, LOMPHACHIT_COUNTS);
}

/* Other places in all records: small or large, or the greatest number. */
static void change_places(uint32_t *records, size_t events) {
    uint64_t below = (uint64_t)1 << dice(33), greatest = !dice(3);
    for (size_t i = 0; i < events; i++) records[RECORD * i + LOMPHACHIT_AT_PLACE] = greatest ? UINT32_MAX : (uint32_t)dice(below);
}

/* One change of an event: a word, a tag, a value's form, a string a little shorter or longer, a whole record. */
static void change_event(uint32_t *records, size_t events, size_t n) {
    uint32_t *record = records + RECORD * dice(events), *string = record + 1 + 3 * dice(4);
    switch (dice(8)) {
    case 0: record[dice(RECORD)] = (uint32_t)dice(9); break;
    case 6: if (record[LOMPHACHIT_AT_VALUE + 2]) record[LOMPHACHIT_AT_VALUE] = lomphachit_tag_of((uint32_t)dice(FORMS)); break;
    case 1: record[dice(RECORD)] = (uint32_t)dice(n + 3); break;
    case 2: record[dice(RECORD)]++; break;
    case 3: memcpy(record, records + RECORD * dice(events), RECORD * sizeof *record); break;
    case 4: string[0] = (uint32_t)dice(LOMPHACHIT_TAG_LONG + 2); break;
    case 5: if (string[2] > 1) string[2] -= 1 + (uint32_t)dice(string[2] - 1); break;
    default: if (string[2]) string[1 + dice(2)] += (uint32_t)dice(3) - 1;
    }
}

/* A list of events, in room enough, in one octet less, in any, and less of it; then so many changes of it. */
static void hold_list(const uint32_t *records, size_t events, const uint8_t *text, size_t n, size_t changes) {
    uint64_t answer = write_in(records, RECORD * events, text, n, LOMPHACHIT_OCTETS + 1);
    size_t used = lomphachit_count_of(answer);
    hold_measure(given, given_words, records, RECORD * events, text, n, LOMPHACHIT_TABLES, LOMPHACHIT_COUNTS);
    memcpy(changed_list, records, RECORD * events * sizeof *records);
    change_places(changed_list, events);
    uint64_t elsewhere = write_in(changed_list, RECORD * events, text, n, LOMPHACHIT_OCTETS + 1);
    if (elsewhere != answer) differs("write with other places", text, n, LOMPHACHIT_OCTETS + 1, elsewhere, answer);
    if (used) write_in(records, RECORD * events, text, n, used), write_in(records, RECORD * events, text, n, used - 1);
    write_in(records, RECORD * events, text, n, dice(n + 2));
    write_in(records, RECORD * dice(events + 1) + dice(RECORD), text, n, n + 8);
    size_t tables = LOMPHACHIT_TABLES - dice(2), counts = LOMPHACHIT_COUNTS + 1 - dice(2);
    hold_measure(given, given_words, records, RECORD * events, text, n, tables, counts);
    hold_write(given, given_words, records, RECORD * events, text, n, n, tables, counts);
    for (size_t i = 0; i < changes && events; i++) {
        if (given_words > LOMPHACHIT_COUNTS) write_with_changed(records, RECORD * events, text, n);
        memcpy(changed_list, records, RECORD * events * sizeof *records);
        if (!dice(4)) change_places(changed_list, events);
        for (size_t many = 1 + dice(3); many; many--) change_event(changed_list, events, n);
        hold_measure(given, given_words, changed_list, RECORD * events, text, n, LOMPHACHIT_TABLES, LOMPHACHIT_COUNTS);
        write_in(changed_list, RECORD * events, text, n, dice(4) ? LOMPHACHIT_OCTETS : used - dice(used / 2 + 1));
    }
}

/* One change of a document: an octet, a bit, an octet that says much, an end, some octets out, in, or over others. */
static size_t change_octets(uint8_t *octets, size_t n) {
    static const uint8_t telling[] = {0x00, 0x09, 0x21, 0x33, 0x3C, 0x3D, 0x3E, 0x3F, 0x38, 0x40, 0x20, 0x60, 0x10, 0x30, 0x78, 0x7B, 0x7C, 0x80, 0x81, 0x84, 0x85, 0x88, 0x8C, 0x90, 0x98, 0x9C, 0xA0, 0xB0, 0xCC, 0xCF, 0xE1, 0xE2, 0xED, 0xF0, 0xF1, 0xF4, 0xFF};
    size_t at = dice(n + 1), from = dice(n + 1), some = 1 + dice(8);
    if (at + some > n || from + some > n) return dice(8) ? n : at;
    switch (dice(8)) {
    case 0: octets[at] = (uint8_t)dice(256); break;
    case 1: octets[at] ^= (uint8_t)(1 << dice(8)); break;
    case 2: octets[at] = telling[dice(sizeof telling)]; break;
    case 3: octets[at] = (uint8_t)(octets[at] + dice(3) - 1); break;
    case 4: return at;
    case 5: memmove(octets + at, octets + at + some, n - at - some); return n - some;
    case 6:
        if (n + some > LONGEST) break;
        memmove(octets + at + some, octets + at, n - at);
        memmove(octets + at, octets + from, some);
        return n + some;
    default: memmove(octets + at, octets + from, some);
    }
    return n;
}

/* More records than the events in so many octets, or in those up to a refusal. */
static size_t enough(uint32_t answer, size_t n) {
    size_t octets = answer ? lomphachit_place_of(answer) : n, events = 2 * octets + 2;
    return RECORD * (events < MOST ? events : MOST);
}

/* A document: the check, reads in room enough and, if wanted, in less; and its events as a list, none where it is refused. The octets stand alone, so that a checker of memory
   sees a look behind them. */
static void hold_document(const uint8_t *octets, size_t n, int all_rooms, size_t list_changes) {
    uint8_t *alone = malloc(n ? n : 1);
    if (!alone) exit(2);
    memcpy(alone, octets, n);
    uint32_t answer = hold_check(alone, n);
    size_t words = enough(answer, n), events = 0, had = 0;
    if (all_rooms || !answer) {
        uint64_t read = hold_read(alone, n, words, LOMPHACHIT_TABLES, LOMPHACHIT_COUNTS);
        if (!answer) events = lomphachit_count_of(read), words = RECORD * events;
        memcpy(list, ours.records, RECORD * events * sizeof *list);
        if (events) had = given_of(ours.tables, ours.counts, given);
    }
    if (all_rooms) {
        size_t rooms[] = {0, words, words ? words - 1 : 0, dice(words + 1)};
        for (size_t i = 0; i < sizeof rooms / sizeof *rooms; i++) hold_read(alone, n, rooms[i], LOMPHACHIT_TABLES, LOMPHACHIT_COUNTS);
        hold_read(alone, n, words, LOMPHACHIT_TABLES - dice(2), LOMPHACHIT_COUNTS + 1 - dice(2));
    }
    given_words = 0;
    if (events || list_changes > 1) hold_list(list, events, alone, n, list_changes);
    given_words = had;
    if (events && (all_rooms || octets[4])) hold_list(list, events, alone, n, list_changes / 4);
    free(alone);
}

/* A document and so many changes of it, of which every eighth is read in all rooms. */
static void hold_changes(size_t n, size_t changes) {
    hold_document(document, n, 1, changes / LIST_SHARE);
    for (size_t i = 0; i < changes; i++) {
        size_t m = n;
        memcpy(changed_document, document, n);
        for (size_t many = 1 + dice(3); many; many--) m = change_octets(changed_document, m);
        hold_document(changed_document, m, i % 8 == 0, 1);
    }
}

/* A start with each octet behind it, and each two octets; every sixteenth of these is read. */
static void hold_tails(size_t n) {
    for (int i = 0; i < 256; i++) {
        document[n] = (uint8_t)i;
        hold_document(document, n + 1, 1, 1);
        for (int j = 0; j < 256; j++) {
            document[n + 1] = (uint8_t)j;
            hold_document(document, n + 2, j % 16 == 0, 1);
        }
    }
}

/* A stretch of standard input. */
static size_t take(void *to, size_t most) {
    uint32_t n;
    if (fread(&n, sizeof n, 1, stdin) != 1 || n > most || fread(to, 1, n, stdin) != n) exit(2);
    return n;
}

static void show(const char *call, const unsigned long *answers) {
    printf("hold: %s, accepted %lu, and by refusal", call, answers[0]);
    for (int i = 1; i < 32; i++)
        if (answers[i]) printf(" %s %lu;", lomphachit_name_of((uint32_t)i), answers[i]);
    puts("");
}

int main(int argc, char **argv) {
    if (argc != 3) return 2;
    size_t changes = strtoul(argv[1], NULL, 10);
    seed = strtoul(argv[2], NULL, 10) * 2 + 88172645463325253u;
    for (int letter = getchar(); letter != EOF; letter = getchar()) {
        size_t n = take(document, sizeof document - 2);
        if (letter == 'd') hold_changes(n, changes);
        else if (letter == 't') hold_tails(n);
        else {
            given_words = take(given, sizeof given) / sizeof *given;
            hold_list(list, take(list, sizeof list) / RECORD / sizeof *list, document, n, changes / LIST_SHARE);
        }
    }
    show("reads", read_answers), show("writes", write_answers), show("measures", measure_answers);
    printf("hold: %lu checks, %lu reads, %lu writes and %lu measures, %lu differences between archive and limit\n", checks, reads, writes, measures, differences);
    return differences != 0;
}
