/* Uses include/lomphachit.h, as C and as C++: reads documents that have all kinds and tags, measures and writes one again, whatever places its records have, and takes answers
   apart. Each thing that is otherwise than it should be is printed and ends with status 1. */
#include "lomphachit.h"

#include <stdio.h>
#include <string.h>

static int faults;

static void is(const char *what, uint64_t got, uint64_t want) {
    if (got == want) return;
    printf("%s is %llu, and should be %llu\n", what, (unsigned long long)got, (unsigned long long)want);
    faults++;
}

/* <a b="c">hi</a>, and behind its 18 octets one that no document has there. */
static const uint8_t SAMPLE[] = {0xE0, 0, 0, 1, 0, 0x7C, 0, 'a', 0x78, 0, 'b', 0x40, 'c', 0xF0, 0x91, 'h', 'i', 0xFF, 0};
enum { OCTETS = 18, EVENTS = 4 };

static uint32_t records[EVENTS * LOMPHACHIT_RECORD], tables[LOMPHACHIT_TABLES], counts[LOMPHACHIT_COUNTS];
static uint8_t out[LOMPHACHIT_OCTETS];

static void string(const char *what, const uint32_t *w, uint32_t tag, uint32_t place, uint32_t length) {
    is(what, w[0], tag), is(what, w[1], place), is(what, w[2], length);
}

static void place(const char *what, const uint32_t *record, uint32_t wanted) { is(what, record[LOMPHACHIT_AT_PLACE], wanted); }

static void reading(void) {
    uint64_t a = lomphachit_read(SAMPLE, OCTETS, records, EVENTS * LOMPHACHIT_RECORD, tables, LOMPHACHIT_TABLES, counts, LOMPHACHIT_COUNTS);
    const uint32_t *attribute = records + LOMPHACHIT_RECORD, *name = tables + lomphachit_row(LOMPHACHIT_TABLE_ATTRIBUTE_NAME, 1);
    is("the answer of reading", lomphachit_refusal_of(a), LOMPHACHIT_ACCEPTED), is("its place", lomphachit_place_of(a), 0), is("its count", lomphachit_count_of(a), EVENTS);
    is("kind 0", records[0], LOMPHACHIT_KIND_START), is("kind 1", attribute[0], LOMPHACHIT_KIND_ATTRIBUTE);
    is("kind 2", records[2 * LOMPHACHIT_RECORD], LOMPHACHIT_KIND_TEXT), is("kind 3", records[3 * LOMPHACHIT_RECORD], LOMPHACHIT_KIND_END);
    place("the start's place", records, 5), place("the attribute's place", attribute, 8);
    place("the text's place", records + 2 * LOMPHACHIT_RECORD, 14), place("the end's place", records + 3 * LOMPHACHIT_RECORD, 17);
    string("the attribute's prefix", attribute + LOMPHACHIT_AT_PREFIX, LOMPHACHIT_TAG_ABSENT, 0, 0);
    string("the attribute's namespace", attribute + LOMPHACHIT_AT_NAMESPACE, LOMPHACHIT_TAG_ABSENT, 0, 0);
    string("the attribute's name", attribute + LOMPHACHIT_AT_NAME, LOMPHACHIT_TAG_STRETCH, 10, 1);
    string("the attribute's value", attribute + LOMPHACHIT_AT_VALUE, LOMPHACHIT_TAG_STRETCH, 12, 1);
    string("ATTRIBUTE NAME 1", name, 0, 0, 2);
    string("LOCAL NAME 2", tables + lomphachit_row(LOMPHACHIT_TABLE_LOCAL_NAME, 2), 10, 1, 0);
    string("ATTRIBUTE VALUE 1", tables + lomphachit_row(LOMPHACHIT_TABLE_ATTRIBUTE_VALUE, 1), 12, 1, 0);
    is("the count of PREFIX", counts[LOMPHACHIT_TABLE_PREFIX], 1), is("the count of LOCAL NAME", counts[LOMPHACHIT_TABLE_LOCAL_NAME], 2);
    is("the count of CONTENT CHARACTER CHUNK", counts[LOMPHACHIT_TABLE_CONTENT_CHARACTER_CHUNK], 1), is("the count of OTHER URI", counts[LOMPHACHIT_TABLE_OTHER_URI], 0);
}

/* <xml:a xmlns:xml=".." b=""><!--x--><?c ?></xml:a>: the kinds, tags and tables that the sample lacks. */
static const uint8_t REST[] = {0xE0, 0, 0, 1, 0, 0x78, 0xCF, 0x80, 0x80, 0xF0, 0x3F, 0x80, 0x80, 0, 'a', 0x78, 0, 'b', 0xFF, 0xF0, 0xE2, 0x40, 'x', 0xE1, 0, 'c', 0xFF, 0xFF};

static void rest(void) {
    static uint32_t row[6 * LOMPHACHIT_RECORD];
    uint64_t a = lomphachit_read(REST, sizeof REST, row, 6 * LOMPHACHIT_RECORD, tables, LOMPHACHIT_TABLES, counts, LOMPHACHIT_COUNTS);
    const uint32_t kinds[] = {LOMPHACHIT_KIND_NAMESPACE, LOMPHACHIT_KIND_START, LOMPHACHIT_KIND_ATTRIBUTE, LOMPHACHIT_KIND_COMMENT, LOMPHACHIT_KIND_INSTRUCTION, LOMPHACHIT_KIND_END};
    const uint32_t places[] = {6, 10, 15, 20, 23, 27};
    is("the rest's answer", lomphachit_refusal_of(a), LOMPHACHIT_ACCEPTED), is("its count", lomphachit_count_of(a), 6);
    for (int k = 0; k < 6; k++) is("a kind of the rest", row[k * LOMPHACHIT_RECORD], kinds[k]), place("a place of the rest", row + k * LOMPHACHIT_RECORD, places[k]);
    string("the declared prefix", row + LOMPHACHIT_AT_PREFIX, LOMPHACHIT_TAG_XML_PREFIX, 0, 0);
    string("the declared namespace", row + LOMPHACHIT_AT_NAMESPACE, LOMPHACHIT_TAG_XML_NAMESPACE, 0, 0);
    string("the empty value", row + 2 * LOMPHACHIT_RECORD + LOMPHACHIT_AT_VALUE, LOMPHACHIT_TAG_EMPTY, 0, 0);
    string("the target", row + 4 * LOMPHACHIT_RECORD + LOMPHACHIT_AT_NAME, LOMPHACHIT_TAG_STRETCH, 25, 1);
    string("ELEMENT NAME 1", tables + lomphachit_row(LOMPHACHIT_TABLE_ELEMENT_NAME, 1), 1, 1, 1);
    string("NAMESPACE NAME 1", tables + lomphachit_row(LOMPHACHIT_TABLE_NAMESPACE_NAME, 1), 0, 0, 0);
    string("OTHER NCNAME 1", tables + lomphachit_row(LOMPHACHIT_TABLE_OTHER_NCNAME, 1), 25, 1, 0);
    string("OTHER STRING 1", tables + lomphachit_row(LOMPHACHIT_TABLE_OTHER_STRING, 1), 22, 1, 0);
    is("the count of NAMESPACE NAME", counts[LOMPHACHIT_TABLE_NAMESPACE_NAME], 1), is("the count of ATTRIBUTE VALUE", counts[LOMPHACHIT_TABLE_ATTRIBUTE_VALUE], 0);
}

/* <a>1234<!--T-->&#x1F600; and behind that integers: chunks "-32768 0 9" in shorts and "-2147483648" in ints, and a comment of a long, the lowest of its width, and a chunk of the
   highest. The others are a chunk in alphabet 1, a comment in alphabet 2 and a chunk in utf-16. Each is added to its table. */
static const uint8_t FORMS[] = {0xE0, 0, 0, 1, 0, 0x3C, 0, 'a', 0x98, 1, 0x12, 0x34, 0xE2, 0x60, 0x10, 0xCF, 0x96, 1, 0xD8, 0x3D, 0xDE, 0,
                                0x9C, 0x0A, 3, 0x80, 0, 0, 0, 0, 9, 0x9C, 0x0E, 1, 0x80, 0, 0, 0, 0xE2, 0x70, 0x47, 0x80, 0, 0, 0, 0, 0, 0, 0,
                                0x9C, 0x12, 5, 0x7F, 0xFF, 0xFF, 0xFF, 0xFF, 0xFF, 0xFF, 0xFF, 0xFF};
enum { IN_FORMS = 9 };

static void said(const uint32_t *record, const char *wanted) {
    uint8_t utf_8[LOMPHACHIT_SAID * sizeof FORMS];
    size_t n = lomphachit_say(FORMS, record + LOMPHACHIT_AT_VALUE, utf_8);
    is("octets said", n, strlen(wanted)), is("a difference of what is said", (uint64_t)!!memcmp(utf_8, wanted, n < strlen(wanted) ? n : strlen(wanted)), 0);
}

/* The last four of these: in short, int, long and long. */
static void integers(const uint32_t *row) {
    string("the chunk in shorts", row + LOMPHACHIT_AT_VALUE, LOMPHACHIT_TAG_SHORT, 25, 6);
    string("the chunk in ints", row + LOMPHACHIT_RECORD + LOMPHACHIT_AT_VALUE, LOMPHACHIT_TAG_INT, 34, 4);
    string("the comment in longs", row + 2 * LOMPHACHIT_RECORD + LOMPHACHIT_AT_VALUE, LOMPHACHIT_TAG_LONG, 41, 8);
    string("CONTENT CHARACTER CHUNK 3 in shorts", tables + lomphachit_row(LOMPHACHIT_TABLE_CONTENT_CHARACTER_CHUNK, 3), 25, 6, 4);
    string("CONTENT CHARACTER CHUNK 4 in ints", tables + lomphachit_row(LOMPHACHIT_TABLE_CONTENT_CHARACTER_CHUNK, 4), 34, 4, 5);
    string("OTHER STRING 2 in longs", tables + lomphachit_row(LOMPHACHIT_TABLE_OTHER_STRING, 2), 41, 8, 6);
    is("the tag of form 4", lomphachit_tag_of(4), LOMPHACHIT_TAG_SHORT), is("the tag of form 6", lomphachit_tag_of(6), LOMPHACHIT_TAG_LONG);
    said(row, "-32768 0 9"), said(row + LOMPHACHIT_RECORD, "-2147483648"), said(row + 2 * LOMPHACHIT_RECORD, "-9223372036854775808");
    said(row + 3 * LOMPHACHIT_RECORD, "9223372036854775807");
}

static void forms(void) {
    static uint32_t row[IN_FORMS * LOMPHACHIT_RECORD];
    uint64_t a = lomphachit_read(FORMS, sizeof FORMS, row, IN_FORMS * LOMPHACHIT_RECORD, tables, LOMPHACHIT_TABLES, counts, LOMPHACHIT_COUNTS);
    const uint32_t *in_2 = tables + lomphachit_row(LOMPHACHIT_TABLE_OTHER_STRING, 1), *in_utf_16 = tables + lomphachit_row(LOMPHACHIT_TABLE_CONTENT_CHARACTER_CHUNK, 2);
    is("the answer of forms", lomphachit_refusal_of(a), LOMPHACHIT_ACCEPTED), is("its count", lomphachit_count_of(a), IN_FORMS);
    string("the chunk in alphabet 1", row + LOMPHACHIT_RECORD + LOMPHACHIT_AT_VALUE, LOMPHACHIT_TAG_ALPHABET_1, 10, 2);
    string("the comment in alphabet 2", row + 2 * LOMPHACHIT_RECORD + LOMPHACHIT_AT_VALUE, LOMPHACHIT_TAG_ALPHABET_2, 15, 1);
    string("the chunk in utf-16", row + 3 * LOMPHACHIT_RECORD + LOMPHACHIT_AT_VALUE, LOMPHACHIT_TAG_UTF_16, 18, 4);
    string("OTHER STRING 1 in alphabet 2", in_2, 15, 1, 3), string("CONTENT CHARACTER CHUNK 2 in utf-16", in_utf_16, 18, 4, 1);
    is("the tag of form 0", lomphachit_tag_of(0), LOMPHACHIT_TAG_STRETCH), is("the tag of form 2", lomphachit_tag_of(2), LOMPHACHIT_TAG_ALPHABET_1);
    is("the tag of a row", lomphachit_tag_of(in_2[2]), LOMPHACHIT_TAG_ALPHABET_2), is("the tag of another", lomphachit_tag_of(in_utf_16[2]), LOMPHACHIT_TAG_UTF_16);
    said(row + LOMPHACHIT_RECORD, "1234"), said(row + 2 * LOMPHACHIT_RECORD, "T"), said(row + 3 * LOMPHACHIT_RECORD, "\xF0\x9F\x98\x80"), said(row, "");
    integers(row + 4 * LOMPHACHIT_RECORD);
}

/* A pointer is never null, even where nothing is given. */
static const uint32_t NONE[1] = {0};

/* The answer of measuring the first so many events of the sample, which is its own text area. */
static uint64_t measure(const uint32_t *given, size_t given_len, size_t events) {
    return lomphachit_measure(given, given_len, records, events * LOMPHACHIT_RECORD, SAMPLE, OCTETS, tables, LOMPHACHIT_TABLES, counts, LOMPHACHIT_COUNTS);
}

/* That of writing them into so many octets. */
static uint64_t write_into(size_t out_len, const uint32_t *given, size_t given_len, size_t events) {
    return lomphachit_write(given, given_len, records, events * LOMPHACHIT_RECORD, SAMPLE, OCTETS, out, out_len, tables, LOMPHACHIT_TABLES, counts, LOMPHACHIT_COUNTS);
}

/* Measured, and written into that much and into an octet less. */
static void written(const uint32_t *given, size_t given_len, const uint8_t *wanted, size_t wanted_len) {
    uint64_t a = measure(given, given_len, EVENTS);
    is("the answer of measuring", lomphachit_refusal_of(a), LOMPHACHIT_ACCEPTED), is("its count", lomphachit_count_of(a), wanted_len);
    is("the measured count of LOCAL NAME", counts[LOMPHACHIT_TABLE_LOCAL_NAME], 2);
    string("the measured ATTRIBUTE VALUE 1", tables + lomphachit_row(LOMPHACHIT_TABLE_ATTRIBUTE_VALUE, 1), 12, 1, 0);
    out[wanted_len] = 0xAB;
    is("the answer of writing", write_into(lomphachit_count_of(a), given, given_len, EVENTS), a);
    is("a difference of what is written", (uint64_t)!!memcmp(out, wanted, wanted_len), 0), is("an octet behind it", out[wanted_len], 0xAB);
    is("the count of LOCAL NAME", counts[LOMPHACHIT_TABLE_LOCAL_NAME], 2), is("the check of it", lomphachit_check(out, wanted_len), LOMPHACHIT_ACCEPTED);
    is("an octet less", lomphachit_refusal_of(write_into(wanted_len - 1, given, given_len, EVENTS)), LOMPHACHIT_REFUSED_ROOM), is("an octet after a refusal", out[0], 0);
}

static void set_places(uint32_t x) {
    for (int k = 0; k < EVENTS; k++) records[k * LOMPHACHIT_RECORD + LOMPHACHIT_AT_PLACE] = x;
}

static void writing(void) {
    /* The places are those that were read, then the same everywhere. */
    written(NONE, 0, SAMPLE, OCTETS);
    set_places(0), written(NONE, 0, SAMPLE, OCTETS);
    set_places(UINT32_MAX), written(NONE, 0, SAMPLE, OCTETS);
    uint64_t a = measure(NONE, 0, 3);
    is("a list that stops", lomphachit_refusal_of(a), LOMPHACHIT_REFUSED_EVENT), is("its place", lomphachit_place_of(a), 3), is("its count", lomphachit_count_of(a), 0);
    is("a count after a refusal of measuring", counts[0], 0), is("a row after it", tables[lomphachit_row(LOMPHACHIT_TABLE_LOCAL_NAME, 1) + 1], 0);
    is("writing a list that stops", write_into(sizeof out, NONE, 0, 3), a), is("an octet after a refusal", out[0], 0), is("a count after a refusal", counts[0], 0);
}

/* The sample behind a head that lists its names and its value. */
static void listing(void) {
    static const uint32_t given[] = {0, 0, 2, 0, 0, 1, 0, 0, 1, 1, LOMPHACHIT_TAG_STRETCH, 7, 1, LOMPHACHIT_TAG_STRETCH, 10, 1, LOMPHACHIT_TAG_STRETCH, 12, 1, 0, 0, 1, 0, 0, 2};
    static const uint8_t wanted[] = {0xE0, 0, 0, 1, 0x20, 0, 0x93, 1, 0, 'a', 0, 'b', 0, 0, 'c', 0, 0, 0, 0, 0, 1, 0x40, 0, 0x80, 0xF0, 0x91, 'h', 'i', 0xFF};
    written(given, sizeof given / 4, wanted, sizeof wanted);
    is("words that give no tables", measure(given, 9, EVENTS), LOMPHACHIT_REFUSED_EVENT), is("writing with them", write_into(sizeof out, given, 9, EVENTS), LOMPHACHIT_REFUSED_EVENT);
}

static void checking(void) {
    uint32_t a = lomphachit_check(SAMPLE, OCTETS + 1);
    is("the check of the sample", lomphachit_check(SAMPLE, OCTETS), LOMPHACHIT_ACCEPTED);
    is("octets after the end", lomphachit_refusal_of(a), LOMPHACHIT_REFUSED_STRUCTURE), is("their place", lomphachit_place_of(a), OCTETS), is("their count", lomphachit_count_of(a), 0);
    is("no octets", lomphachit_check(SAMPLE, 0), LOMPHACHIT_REFUSED_SIZE);
    uint64_t b = lomphachit_read(SAMPLE, OCTETS, records, LOMPHACHIT_RECORD, tables, LOMPHACHIT_TABLES, counts, LOMPHACHIT_COUNTS);
    is("one record for four events", lomphachit_refusal_of(b), LOMPHACHIT_REFUSED_ROOM), is("its place", lomphachit_place_of(b), 8);
    b = lomphachit_read(SAMPLE, OCTETS, records, EVENTS * LOMPHACHIT_RECORD, tables, LOMPHACHIT_TABLES - 1, counts, LOMPHACHIT_COUNTS);
    is("a table word too few", b, LOMPHACHIT_REFUSED_ROOM), is("a kind after a refusal", records[0], LOMPHACHIT_KIND_BLANK);
    place("a place after a refusal", records, 0);
}

int main(void) {
    rest();
    forms();
    reading();
    writing();
    listing();
    checking();
    is("the word behind the place", LOMPHACHIT_AT_PLACE + 1, LOMPHACHIT_RECORD), is("the word of the place", LOMPHACHIT_AT_VALUE + 3, LOMPHACHIT_AT_PLACE);
    is("the words of the tables", LOMPHACHIT_TABLES, lomphachit_row(LOMPHACHIT_COUNTS, 1));
    is("the words of a row", lomphachit_row(0, 2), LOMPHACHIT_ROW), is("the words of a table", lomphachit_row(1, 1), LOMPHACHIT_ROWS * LOMPHACHIT_ROW);
    /* The names go to the script, which knows them from elsewhere. */
    for (uint32_t refusal = 0; refusal < 32; refusal++) printf("%u %s\n", (unsigned)refusal, lomphachit_name_of(refusal));
    return faults != 0;
}
