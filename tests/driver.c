/* Reads documents in hex, one to a line, and prints for each what the archive answers: the check's number, and the listing of what lomphachit_read left in
   lent room that was full of other things. Each document is read twice on the same room, and once more in another place: all that is lent starts, and then ends,
   at a page that may not be touched. Any difference, any word that is not blank behind the part used, any form that a string cannot have, and places that fall or are shared by
   other events than two Ends, is printed as a fault and ends with status 1.

   usage: driver RECORDS [whole] < lines  a line of output for each line of input: NUMBER, a tab, the listing with ';' for line ends; what strings say is shown in UTF-8.
                                          Whole: a tab, the events and a tab, the tables, as vectors/README.md writes them.
                                          Then a tab and the places of the events, with commas between */
#define _GNU_SOURCE
#include "fenced.h"
#include "forms.h"

uint32_t lomphachit_check(const uint8_t *octets, size_t n);
uint64_t lomphachit_read(const uint8_t *octets, size_t n, uint32_t *records, size_t r, uint32_t *tables, size_t t, uint32_t *counts, size_t c);

enum { RECORD = 14, PLACE = 13, END = 7, TABLES = 7680, COUNTS = 10, ROWS = 256, MOST = 1 << 16, IDENTIFYING = 5, NAMES = 8, FORMS = 7 };
static const char *const KINDS = ".NSATCPE";

static int faults;

static void fault(const char *what) {
    printf("FAULT %s\t\t\n", what);
    faults++;
}

static void dirty(uint32_t *words, size_t n, uint32_t seed) {
    for (size_t i = 0; i < n; i++) words[i] = seed = seed * 1664525u + 1013904223u;
}

static void hex(const uint8_t *x, size_t n) {
    putchar('=');
    for (size_t i = 0; i < n; i++) printf("%02x", x[i]);
}

/* One string of a record: a tag, a place and a length. */
static void string(const uint8_t *s, const uint32_t *w) {
    static uint8_t utf_8[LONGER * MOST];
    putchar(' ');
    if (w[0] > TAG_LONG) fault("a string has a tag that none has");
    if (w[0]) hex(utf_8, said(s, w, utf_8));
    else putchar('-');
}

/* The same as vectors/README.md writes it, with place, length and form. */
static void stretch(const uint32_t *w) {
    static const char *const marks[] = {"-", "0", "", "X", "U", "/u", "/1", "/2", "/3", "/4", "/5"};
    if (w[0] == TAG_UTF_8 || w[0] >= TAG_UTF_16) printf("%u+%u", w[1], w[2]);
    printf("%s", w[0] <= TAG_LONG ? marks[w[0]] : "?");
}

static void whole_event(const uint32_t *r) {
    putchar(KINDS[r[0] & 7]);
    for (int i = 0; i < 4; i++) putchar(','), stretch(r + 1 + 3 * i);
}

/* A row is a string's place, length and form, all 0 for a built-in one, or the three numbers of a name. */
static void row(int table, const uint32_t *w) {
    const uint32_t string[] = {w[1] ? tag_of_row(w[2]) : table ? TAG_XMLNS : TAG_XML, w[0], w[1]};
    if (table < NAMES) stretch(string);
    else printf("%u.%u.%u", w[0], w[1], w[2]);
}

/* Which of the four strings a kind has: prefix, namespace, name, value. */
static const char *const HAS[] = {"", "\0\1", "\0\1\2", "\0\1\2\3", "\3", "\3", "\2\3", ""};
static const int MANY[] = {0, 2, 3, 4, 1, 1, 2, 0};

static void event(const uint8_t *s, const uint32_t *r) {
    putchar(KINDS[r[0] & 7]);
    for (int i = 0; i < MANY[r[0] & 7]; i++) string(s, r + 1 + 3 * HAS[r[0] & 7][i]);
    putchar(';');
}

static int all_zero(const uint32_t *w, size_t from, size_t to) {
    for (size_t i = from; i < to; i++)
        if (w[i]) return 0;
    return 1;
}

/* What is lent for one reading. */
struct lent {
    uint8_t *s;
    uint32_t *r, *t, *c;
};

/* All room ending, or all starting, at a page that may not be touched. */
static struct lent lend(const struct fenced *rooms, size_t n, size_t words, int at_end) {
    return (struct lent){fenced_part(rooms[0], n, at_end), fenced_part(rooms[1], words * 4, at_end), fenced_part(rooms[2], TABLES * 4, at_end), fenced_part(rooms[3], COUNTS * 4, at_end)};
}

static void dirty_all(const struct lent *l, size_t words, uint32_t *seed) {
    dirty(l->r, words, ++*seed), dirty(l->t, TABLES, ++*seed), dirty(l->c, COUNTS, ++*seed);
}

static uint64_t read_into(const struct lent *l, size_t n, size_t words) { return lomphachit_read(l->s, n, l->r, words, l->t, TABLES, l->c, COUNTS); }

static int same(const struct lent *a, const struct lent *b, size_t words) {
    return !memcmp(a->r, b->r, words * 4) && !memcmp(a->t, b->t, TABLES * 4) && !memcmp(a->c, b->c, COUNTS * 4);
}

static void copy(const struct lent *to, const struct lent *from, size_t words) {
    memcpy(to->r, from->r, words * 4), memcpy(to->t, from->t, TABLES * 4), memcpy(to->c, from->c, COUNTS * 4);
}

/* Places within the document never fall, and only Ends share one. */
static void judge_places(const struct lent *l, size_t n, size_t events) {
    for (size_t i = 0; i < events; i++) {
        const uint32_t *r = l->r + i * RECORD, *before = r - RECORD;
        if (r[PLACE] >= n) fault("an event has a place behind the document");
        if (i && r[PLACE] < before[PLACE] + (r[0] != END || before[0] != END)) fault("an event has a place before that of the one in front");
    }
}

/* What is not blank though it should be. */
static void judge(const struct lent *l, size_t words, uint64_t a) {
    size_t events = (size_t)(a >> 32);
    if ((uint32_t)a && (events || !all_zero(l->t, 0, TABLES) || !all_zero(l->c, 0, COUNTS))) fault("a refusal leaves something");
    if (!all_zero(l->r, events * RECORD, words)) fault("a record behind the events is not blank");
    for (int k = 0; k < COUNTS; k++)
        if (l->c[k] > ROWS || !all_zero(l->t, (ROWS * k + l->c[k]) * 3, ROWS * (k + 1) * 3)) fault("a row behind a table's entries is not blank");
    for (uint32_t k = 0; k < NAMES * ROWS; k++)
        if (l->t[3 * k + 2] >= (k < IDENTIFYING * ROWS ? 1 : FORMS)) fault("a row has a form that its string cannot have");
}

static void print_places(const struct lent *l, size_t events) {
    putchar('\t');
    for (size_t i = 0; i < events; i++) printf("%s%u", i ? "," : "", l->r[i * RECORD + PLACE]);
    putchar('\n');
}

static void print_whole(const struct lent *l, uint32_t number, uint64_t a) {
    printf("%u\t", number);
    for (size_t i = 0; i < a >> 32; i++) fputs(i ? " " : "", stdout), whole_event(l->r + i * RECORD);
    putchar('\t');
    for (int k = 0; k < COUNTS; k++) {
        fputs(k ? "|" : "", stdout);
        for (uint32_t i = 0; i < l->c[k]; i++) fputs(i ? " " : "", stdout), row(k, l->t + (ROWS * k + i) * 3);
    }
}

static void print(const struct lent *l, uint32_t number, uint64_t a) {
    uint32_t answer = (uint32_t)a;
    printf("%u\t", number);
    if (answer) printf("refused %u at %u;", answer % 32, answer / 32);
    for (size_t i = 0; i < a >> 32; i++) event(l->s, l->r + i * RECORD);
    if (!answer) printf("end %zu;", (size_t)(a >> 32));
}

int main(int argc, char **argv) {
    size_t room = argc > 1 ? strtoul(argv[1], 0, 10) : 512;
    size_t spare = 5; /* words behind the last whole record */
    size_t words = room * RECORD + spare;
    char *line = malloc(4 * MOST);
    const struct fenced rooms[] = {fenced(MOST), fenced(words * 4), fenced(TABLES * 4), fenced(COUNTS * 4)};
    const struct lent kept = {0, malloc(words * 4), malloc(TABLES * 4), malloc(COUNTS * 4)};
    uint32_t seed = 1;
    while (fgets(line, 4 * MOST, stdin)) {
        static uint8_t s[MOST];
        size_t n = 0;
        unsigned x;
        for (char *p = line; sscanf(p, "%2x", &x) == 1; p += 2) s[n++] = (uint8_t)x;
        struct lent first = lend(rooms, n, words, 0);
        memcpy(first.s, s, n);
        uint32_t number = lomphachit_check(first.s, n);
        dirty_all(&first, words, &seed);
        uint64_t a = read_into(&first, n, words);
        copy(&kept, &first, words);
        if (a != read_into(&first, n, words) || !same(&first, &kept, words)) fault("the second reading differs");
        struct lent last = lend(rooms, n, words, 1);
        memcpy(last.s, s, n);
        if (number != lomphachit_check(last.s, n)) fault("the second check differs");
        dirty_all(&last, words, &seed);
        if (a != read_into(&last, n, words) || !same(&last, &kept, words)) fault("the reading in another place differs");
        judge(&last, words, a);
        judge_places(&last, n, (size_t)(a >> 32));
        (argc > 2 ? print_whole : print)(&last, number, a);
        print_places(&last, (size_t)(a >> 32));
    }
    return faults != 0;
}
