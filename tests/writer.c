/* Reads event lists, one to a line, and prints for each what lomphachit_write answers and leaves in lent room that was full of other things, and what lomphachit_measure
   does. Each list is written twice on the same room, and what was written is read back. Then it is written in two other places: all that is lent starts, and then ends,
   at a page that may not be touched. It is measured in the same four ways, which must be what writing gives with room for the longest document; and written with exactly as
   many octets as were measured, and with one less. Then it is written and measured with other places in its records: those of what was written, seeded ones, and the
   greatest number. A difference, an octet or word that is not 0 behind the part used or after a refusal, and anything changed that was not lent to be changed, is printed
   as a fault and ends with status 1.

   usage: writer < lines
   A line has, with one blank between: the octets and the table and count words to lend, the text area in hex ('-' for none), how many words give tables and these, the
   words of the records.
   Two lines of output for each: "ok", the octets, the ten counts with commas between; or "refused", the number, the place. Then "measured", and the same with the number of
   octets in place of the octets. */
#define _GNU_SOURCE
#include "fenced.h"
#include "forms.h"

uint64_t lomphachit_read(const uint8_t *octets, size_t n, uint32_t *records, size_t r, uint32_t *tables, size_t t, uint32_t *counts, size_t c);
uint64_t lomphachit_write(const uint32_t *given, size_t g, const uint32_t *records, size_t r, const uint8_t *text, size_t n, uint8_t *out, size_t o, uint32_t *tables,
                          size_t t, uint32_t *counts, size_t c);
uint64_t lomphachit_measure(const uint32_t *given, size_t g, const uint32_t *records, size_t r, const uint8_t *text, size_t n, uint32_t *tables, size_t t, uint32_t *counts, size_t c);

enum { RECORD = 14, PLACE = 13, STRINGS = 4, TABLES = 7680, COUNTS = 10, ROWS = 256, NAMES = 8, IDENTIFYING = 5, UTF_16_ROW = 1, EVENTS = 1 << 15, GIVEN = 1 << 14, OCTETS = 1 << 16, FENCE = 16, LONGEST = 16384, ROOM = 14 };

/* What one call is lent, and what it is lent to read only. Behind each lent part stands a fence that no call may change. */
struct room {
    size_t o, t, c;
    uint8_t out[OCTETS];
    uint32_t tables[2 * TABLES], counts[COUNTS + FENCE];
};
struct list {
    size_t g, r, n;
    uint32_t given[GIVEN], records[EVENTS * RECORD];
    uint8_t text[OCTETS];
};
static struct room first, second, dirt, measured, whole;
static struct list list, before;
static uint32_t back[EVENTS * RECORD], back_tables[TABLES], back_counts[COUNTS];
static int faults;

static void fault(const char *what) {
    printf("FAULT %s\n", what);
    faults++;
}

static void dirty(void *room, size_t n, uint32_t seed) {
    for (size_t i = 0; i < n; i++) ((uint8_t *)room)[i] = (uint8_t)((seed = seed * 1664525u + 1013904223u) >> 24);
}

static int all_zero(const void *room, size_t from, size_t to) {
    for (size_t i = from; i < to; i++)
        if (((const uint8_t *)room)[i]) return 0;
    return 1;
}

/* Whether some event or given entry is the string of these three words: the writer's tables point to what was given, in the form in which it was. */
static int given_so(const uint32_t *w) {
    for (size_t i = 0; i < list.r / RECORD * STRINGS; i++)
        if (!memcmp(list.records + i / STRINGS * RECORD + 1 + i % STRINGS * 3, w, 3 * sizeof *w)) return 1;
    for (size_t i = COUNTS; i + 2 < list.g; i += 3)
        if (!memcmp(list.given + i, w, 3 * sizeof *w)) return 1;
    return 0;
}

/* Whether two strings, each by its three words in its own octets, say the same. */
static int same_string(const uint8_t *s, const uint32_t *a, const uint8_t *d, const uint32_t *b) {
    static uint8_t x[LONGER * OCTETS], y[LONGER * OCTETS];
    size_t n = said(s, a, x), m = said(d, b, y);
    return !a[0] == !b[0] && n == m && !memcmp(x, y, n);
}

static int same_event(const uint8_t *s, const uint32_t *a, const uint8_t *d, const uint32_t *b) {
    for (int k = 0; k < STRINGS; k++)
        if (!same_string(s, a + 1 + 3 * k, d, b + 1 + 3 * k)) return 0;
    return a[0] == b[0];
}

/* Entry i of a table, as the writer and as the reader left it: a triple or a built-in entry has the same words in both, a string says the same in both. */
static int same_entry(int table, uint32_t i) {
    const uint32_t *a = first.tables + (ROWS * table + i) * 3, *b = back_tables + (ROWS * table + i) * 3;
    if (table >= NAMES || !a[1] || !b[1]) return !memcmp(a, b, 3 * sizeof *a);
    if (table < IDENTIFYING && (a[2] || b[2])) return 0;
    const uint32_t given[] = {tag_of_row(a[2]), a[0], a[1]}, read[] = {tag_of_row(b[2]), b[0], b[1]};
    return given_so(given) && b[2] != UTF_16_ROW && same_string(list.text, given, first.out, read);
}

static int same_tables(void) {
    int good = 1;
    for (int table = 0; table < COUNTS; table++)
        for (uint32_t i = 0; i < first.counts[table]; i++) good &= same_entry(table, i);
    return good;
}

static void read_back(size_t octets) {
    uint64_t a = lomphachit_read(first.out, octets, back, EVENTS * RECORD, back_tables, TABLES, back_counts, COUNTS);
    size_t events = list.r / RECORD;
    if ((uint32_t)a || a >> 32 != events) {
        fault("what was written is not read as so many events");
        return;
    }
    for (size_t i = 0; i < events; i++)
        if (!same_event(list.text, list.records + RECORD * i, first.out, back + RECORD * i)) fault("an event is read otherwise");
    if (memcmp(first.counts, back_counts, sizeof back_counts) || !same_tables()) fault("the tables are read otherwise");
}

static uint64_t write_list(struct room *r) {
    return lomphachit_write(list.given, list.g, list.records, list.r, list.text, list.n, r->out, r->o, r->tables, r->t, r->counts, r->c);
}

static uint64_t measure_list(struct room *r) {
    return lomphachit_measure(list.given, list.g, list.records, list.r, list.text, list.n, r->tables, r->t, r->counts, r->c);
}

/* On dirty room with so many octets of output. */
static uint64_t write_in(struct room *r, size_t octets) {
    *r = dirt;
    r->o = octets;
    return write_list(r);
}

/* A copy at a page that may not be touched. */
static void *placed(struct fenced f, const void *from, size_t octets, int at_end) {
    void *to = fenced_part(f, octets, at_end);
    if (octets) memcpy(to, from, octets);
    return to;
}

/* Written, with the answer a, and measured, with the answer m, once more in another place; what is lent is still dirty. */
static void elsewhere(uint64_t a, uint64_t m, int at_end) {
    static struct fenced of[6];
    if (!of[0].first) {
        const size_t most[] = {sizeof list.given, sizeof list.records, OCTETS, OCTETS, sizeof first.tables, sizeof first.counts};
        for (int k = 0; k < 6; k++) of[k] = fenced(most[k]);
    }
    const uint32_t *given = placed(of[0], list.given, list.g * 4, at_end), *records = placed(of[1], list.records, list.r * 4, at_end);
    const uint8_t *text = placed(of[2], list.text, list.n, at_end);
    uint8_t *out = placed(of[3], dirt.out, first.o, at_end);
    uint32_t *tables = placed(of[4], dirt.tables, first.t * 4, at_end), *counts = placed(of[5], dirt.counts, first.c * 4, at_end);
    uint64_t b = lomphachit_write(given, list.g, records, list.r, text, list.n, out, first.o, tables, first.t, counts, first.c);
    if (a != b || memcmp(out, first.out, first.o) || memcmp(tables, first.tables, first.t * 4) || memcmp(counts, first.counts, first.c * 4)) fault("the writing in another place differs");
    placed(of[4], dirt.tables, first.t * 4, at_end), placed(of[5], dirt.counts, first.c * 4, at_end);
    b = lomphachit_measure(given, list.g, records, list.r, text, list.n, tables, first.t, counts, first.c);
    if (m != b || memcmp(tables, measured.tables, first.t * 4) || memcmp(counts, measured.counts, first.c * 4)) fault("the measuring in another place differs");
}

static int same_left(const struct room *a, const struct room *b) { return !memcmp(a->tables, b->tables, a->t * 4) && !memcmp(a->counts, b->counts, a->c * 4); }

/* Measured on dirty room, again on what that left, and beside writing with room for the longest document: answer, tables and counts, and nothing else changed. */
static uint64_t measure(void) {
    measured = dirt;
    uint64_t m = measure_list(&measured);
    second = measured;
    if (measure_list(&second) != m || memcmp(&measured, &second, sizeof second)) fault("the second measuring differs");
    if (memcmp(measured.out, dirt.out, sizeof dirt.out) || memcmp(measured.tables + dirt.t, dirt.tables + dirt.t, sizeof dirt.tables - 4 * dirt.t)
        || memcmp(measured.counts + dirt.c, dirt.counts + dirt.c, sizeof dirt.counts - 4 * dirt.c))
        fault("measuring changes what is not lent");
    if (write_in(&whole, LONGEST) != m || !same_left(&measured, &whole)) fault("measuring is not writing with room for the longest document");
    return m;
}

/* The octets that were measured are enough, and one less is not: the end of the root and of the document share the last octet, FF, and the last event is refused; or the
   document's end has an octet of its own, F0, and the list's end is. */
static void write_measured(size_t n) {
    if (write_in(&second, n) != (uint64_t)n << 32 || !same_left(&measured, &second) || memcmp(second.out, whole.out, n) || memcmp(second.out + n, dirt.out + n, FENCE))
        fault("the octets measured are not what is written");
    size_t place = list.r / RECORD - (whole.out[n - 1] == 0xFF);
    if (write_in(&second, n - 1) != place * 32 + ROOM) fault("an octet less than was measured is not refused where it should be");
    if (!all_zero(second.out, 0, n - 1) || !all_zero(second.tables, 0, second.t * 4) || !all_zero(second.counts, 0, second.c * 4)) fault("a refusal of an octet less leaves something");
    if (memcmp(second.out + n - 1, dirt.out + n - 1, FENCE)) fault("something is written behind an octet less");
}

/* The list with the places that it is read with, if it was written, with seeded ones, and with the greatest number: writing and measuring answer and leave the same. */
static void with_other_places(uint64_t a, uint64_t m, uint32_t seed) {
    for (int way = (uint32_t)a ? 1 : 0; way < 3; way++) {
        for (size_t i = 0; i < list.r / RECORD; i++) {
            seed = seed * 1664525u + 1013904223u;
            const uint32_t ways[] = {back[RECORD * i + PLACE], seed, UINT32_MAX};
            list.records[RECORD * i + PLACE] = ways[way];
        }
        second = dirt;
        if (write_list(&second) != a || memcmp(&first, &second, sizeof first)) fault("the writing with other places differs");
        second = dirt;
        if (measure_list(&second) != m || memcmp(&measured, &second, sizeof second)) fault("the measuring with other places differs");
    }
}

/* The answer in the line's own room is that of measuring, or ROOM at an event that does not fit, which is none behind one that is refused for something else. */
static int related(uint64_t a, uint64_t m) {
    uint32_t refusal = (uint32_t)a % 32, fits = !(uint32_t)m && m >> 32 <= first.o;
    if (fits || first.o >= LONGEST) return a == m;
    return !(uint32_t)m ? refusal == ROOM : a == m || (refusal == ROOM && (uint32_t)a / 32 <= (uint32_t)m / 32);
}

/* What both calls left, with the first one's answer. */
static void judge(uint64_t a) {
    size_t used = (size_t)(a >> 32);
    if (memcmp(list.given, before.given, list.g * 4) || memcmp(list.records, before.records, list.r * 4) || memcmp(list.text, before.text, list.n)) fault("the list or its text is changed");
    if (memcmp(first.out + first.o, dirt.out + first.o, FENCE) || memcmp(first.tables + first.t, dirt.tables + first.t, FENCE)
        || memcmp(first.counts + first.c, dirt.counts + first.c, FENCE))
        fault("something is written behind the lent room");
    if ((uint32_t)a && (used || !all_zero(first.tables, 0, first.t * 4) || !all_zero(first.counts, 0, first.c * 4))) fault("a refusal leaves something");
    if (used > first.o || !all_zero(first.out, used, first.o)) fault("an octet behind the document is not 0");
    if ((uint32_t)a) return;
    for (int k = 0; k < COUNTS; k++)
        if (first.counts[k] > ROWS || !all_zero(first.tables, (ROWS * k + first.counts[k]) * 12, ROWS * (k + 1) * 12)) fault("a row behind a table's entries is not 0");
    read_back(used);
}

static void print_counts(const uint32_t *counts) {
    for (int k = 0; k < COUNTS; k++) printf("%c%u", k ? ',' : ' ', counts[k]);
    printf("\n");
}

static int print_refusal(uint64_t a) {
    if ((uint32_t)a) printf("refused %u %u\n", (uint32_t)a % 32, (uint32_t)a / 32);
    return !!(uint32_t)a;
}

static void print(uint64_t a, uint64_t m) {
    if (!print_refusal(a)) {
        printf("ok ");
        for (size_t i = 0; i < a >> 32; i++) printf("%02x", first.out[i]);
        print_counts(first.counts);
    }
    printf("measured ");
    if (!print_refusal(m)) printf("ok %u", (uint32_t)(m >> 32)), print_counts(measured.counts);
}

static unsigned digit(char c) { return (unsigned)(c <= '9' ? c - '0' : c - 'a' + 10); }

/* The text area; answers what follows it. */
static char *hex(char *p) {
    if (*p == '-') p++;
    for (list.n = 0; *p > ' '; p += 2) list.text[list.n++] = (uint8_t)(digit(p[0]) << 4 | digit(p[1]));
    return p;
}

static void take(char *p) {
    first.o = strtoul(p, &p, 10), first.t = strtoul(p, &p, 10), first.c = strtoul(p, &p, 10);
    p = hex(p + 1);
    list.g = strtoul(p, &p, 10);
    for (size_t i = 0; i < list.g; i++) list.given[i] = (uint32_t)strtoul(p, &p, 10);
    for (list.r = 0; *p == ' '; list.r++) list.records[list.r] = (uint32_t)strtoul(p, &p, 10);
}

int main(void) {
    char *line = 0;
    size_t size = 0;
    for (uint32_t seed = 1; getline(&line, &size, stdin) > 0; seed++) {
        dirty(&first, sizeof first, seed);
        take(line);
        dirt = first;
        memcpy(before.given, list.given, list.g * 4), memcpy(before.records, list.records, list.r * 4), memcpy(before.text, list.text, list.n);
        uint64_t a = write_list(&first);
        second = first;
        if (write_list(&second) != a || memcmp(&first, &second, sizeof first)) fault("the second writing differs");
        judge(a);
        uint64_t m = measure();
        if (!(uint32_t)m) write_measured((size_t)(m >> 32));
        if (!related(a, m)) fault("the writing in this room does not go with the measuring");
        elsewhere(a, m, 0), elsewhere(a, m, 1);
        with_other_places(a, m, seed);
        print(a, m);
    }
    return faults != 0;
}
