/* Lomphachit: a verified reader and writer of fast infoset documents. MIT licence, see LICENSE.

   Reading a document and printing its text, with -llomphachit:

       static uint32_t records[LOMPHACHIT_EVENTS * LOMPHACHIT_RECORD];
       static uint32_t tables[LOMPHACHIT_TABLES], counts[LOMPHACHIT_COUNTS];
       static uint8_t utf_8[LOMPHACHIT_SAID * LOMPHACHIT_OCTETS];
       uint64_t answer = lomphachit_read(octets, octets_len, records, sizeof records / 4,
                                         tables, LOMPHACHIT_TABLES, counts, LOMPHACHIT_COUNTS);
       if (lomphachit_refusal_of(answer) != LOMPHACHIT_ACCEPTED) return 1;
       for (uint32_t i = 0; i < lomphachit_count_of(answer); i++) {
           const uint32_t *record = records + i * LOMPHACHIT_RECORD;
           const uint32_t *value = record + LOMPHACHIT_AT_VALUE;
           if (record[0] != LOMPHACHIT_KIND_TEXT) continue;
           fwrite(utf_8, 1, lomphachit_say(octets, value, utf_8), stdout);
       }

   Writing its events again, without a head: measure first, lend that much, then write.

       static const uint32_t none[1] = {0};
       size_t words = (size_t)lomphachit_count_of(answer) * LOMPHACHIT_RECORD;
       answer = lomphachit_measure(none, 0, records, words, octets, octets_len,
                                   tables, LOMPHACHIT_TABLES, counts, LOMPHACHIT_COUNTS);
       if (lomphachit_refusal_of(answer) != LOMPHACHIT_ACCEPTED) return 1;
       size_t out_len = lomphachit_count_of(answer);
       uint8_t *out = malloc(out_len);
       if (!out) return 2;
       lomphachit_write(none, 0, records, words, octets, octets_len, out, out_len,
                        tables, LOMPHACHIT_TABLES, counts, LOMPHACHIT_COUNTS);
       fwrite(out, 1, out_len, stdout);
       free(out);

   These are the four functions of the archive liblomphachit.a, for C and C++. They read and write
   the documents of ITU-T X.891 that the link to the switches carries.

   Every function takes all input: there is no document, list or length of lent room that it may
   not be given. What each answers, and every word and octet that it leaves in lent room, is a
   function of what it was given to read and of the lengths lent. It is proved;
   docs/ARCHITECTURE.md lists the theorems.

   What a caller must keep to:
   - A pointer points to as many items as the length behind it says. It is not null, even where
     that length is 0.
   - What is lent to be changed overlaps nothing else of the same call, and nobody else writes to
     it meanwhile.

   A length counts items of its pointer: octets_len, text_len and out_len count octets;
   given_len, records_len, tables_len and counts_len count words of 32 bits. Places count octets
   from 0.
   The names SIZE, TRUNCATED and so on are those of the requirements; docs/REQUIREMENTS.md says
   what each covers. */
#ifndef LOMPHACHIT_H
#define LOMPHACHIT_H

#include <stddef.h>
#include <stdint.h>

#ifdef __cplusplus
extern "C" {
#endif

/* The version of this header and its archive, as text and as numbers. */
#define LOMPHACHIT_VERSION "0.1.0"
#define LOMPHACHIT_VERSION_MAJOR 0
#define LOMPHACHIT_VERSION_MINOR 1
#define LOMPHACHIT_VERSION_PATCH 0

/* Sizes. LOMPHACHIT_TABLES and LOMPHACHIT_COUNTS are asked for exactly: other lengths are ROOM, at
   place 0. They are macros, since C++20 frowns on sums and products of constants of two enums. */
#define LOMPHACHIT_OCTETS 16384 /* the most octets of a document, and of a writer's text area */
#define LOMPHACHIT_EVENTS 21838 /* no document has more events, so no reader needs more records */
#define LOMPHACHIT_RECORD 14    /* words of an event record */
#define LOMPHACHIT_TABLES 7680  /* words of the ten tables: 256 rows of 3 words for each */
#define LOMPHACHIT_COUNTS 10    /* words of the counts, one for each table */
#define LOMPHACHIT_ROWS 256     /* rows of a table, which are the most entries it can have */
#define LOMPHACHIT_ROW 3        /* words of a row */
#define LOMPHACHIT_SAID 4       /* the most octets of UTF-8 that one octet of a string stands for */

/* An event record: word 0 is its kind, then come four strings of three words each: a tag, a place
   and a length. The strings that a kind does not have are absent. The last word is the event's own
   place in the document that it was read from. */
enum lomphachit_kind {
    LOMPHACHIT_KIND_BLANK = 0,       /* no event; all 14 words are 0 */
    LOMPHACHIT_KIND_NAMESPACE = 1,   /* prefix, namespace */
    LOMPHACHIT_KIND_START = 2,       /* prefix, namespace, local name */
    LOMPHACHIT_KIND_ATTRIBUTE = 3,   /* prefix, namespace, local name, value */
    LOMPHACHIT_KIND_TEXT = 4,        /* value: one chunk, never joined to its neighbour */
    LOMPHACHIT_KIND_COMMENT = 5,     /* value */
    LOMPHACHIT_KIND_INSTRUCTION = 6, /* name: the target; value: the content */
    LOMPHACHIT_KIND_END = 7
};

/* Where each string of a record has its tag; place and length are the two words behind it. */
#define LOMPHACHIT_AT_PREFIX 1
#define LOMPHACHIT_AT_NAMESPACE 4
#define LOMPHACHIT_AT_NAME 7
#define LOMPHACHIT_AT_VALUE 10

/* The word of a record that has the event's place: the octet, from 0, at which the event starts.
   That is for a declaration the octet that says whether it has prefix and namespace; for a start
   the one in which its name starts, so with declarations the one behind their end; for an
   attribute, a chunk, a comment and an instruction its first; for an end the one that holds its
   four bits. Places never fall along the list, and only two ends can share one. Writing and
   measuring do not look at this word, so records that were read can be given to them as they are,
   and in a record that the caller makes anything may stand there. */
#define LOMPHACHIT_AT_PLACE 13

/* What a string is. A stretch is so many octets from that place on, never 0, in the document read
   or in the writer's text area, and its tag says the form in which they stand. Place and length are
   0 beside the other tags. Only a value can be a stretch in another form than utf-8: prefix,
   namespace and name cannot. Strings are the same that have the same characters, whatever their
   forms. */
enum lomphachit_tag {
    LOMPHACHIT_TAG_ABSENT = 0,
    LOMPHACHIT_TAG_EMPTY = 1,
    /* A stretch in utf-8. */
    LOMPHACHIT_TAG_STRETCH = 2,
    /* The built-in prefix, "xml". */
    LOMPHACHIT_TAG_XML_PREFIX = 3,
    /* The built-in namespace, "http://www.w3.org/XML/1998/namespace". */
    LOMPHACHIT_TAG_XML_NAMESPACE = 4,
    /* A stretch in utf-16, the higher octet first. */
    LOMPHACHIT_TAG_UTF_16 = 5,
    /* Stretches in the restricted alphabets 1, "0123456789-+.e ", and 2, "0123456789-:TZ ": two
       characters in an octet, the first in the higher half, each by its place in the alphabet, from
       0. A lower half of 15 in the last octet is no character. */
    LOMPHACHIT_TAG_ALPHABET_1 = 6,
    LOMPHACHIT_TAG_ALPHABET_2 = 7,
    /* Stretches of integers of 2, 4 and 8 octets, by the encoding algorithms 3, 4 and 5: the
       highest octet first, in two's complement. Their characters are the integers in decimal, with
       single spaces between, a minus sign before a negative one, and no zero in front. */
    LOMPHACHIT_TAG_SHORT = 8,
    LOMPHACHIT_TAG_INT = 9,
    LOMPHACHIT_TAG_LONG = 10
};

/* The ten tables in the order of their counts. Entry number n (from 1) of table t has the three
   words from lomphachit_row(t, n) on. In the first eight tables they are place, length and form,
   all 0 for a built-in entry. The form is that in which the entry came: 0 utf-8, 1 utf-16, 2 and 3
   the alphabets 1 and 2, 4, 5 and 6 short, int and long; lomphachit_tag_of gives the tag. It is 0
   in the first five. In the last two tables the words are the numbers of a name's prefix, namespace
   and local name, 0 for none. */
enum lomphachit_table {
    LOMPHACHIT_TABLE_PREFIX = 0,
    LOMPHACHIT_TABLE_NAMESPACE_NAME = 1,
    LOMPHACHIT_TABLE_LOCAL_NAME = 2,
    LOMPHACHIT_TABLE_OTHER_NCNAME = 3,
    LOMPHACHIT_TABLE_OTHER_URI = 4,
    LOMPHACHIT_TABLE_ATTRIBUTE_VALUE = 5,
    LOMPHACHIT_TABLE_CONTENT_CHARACTER_CHUNK = 6,
    LOMPHACHIT_TABLE_OTHER_STRING = 7,
    LOMPHACHIT_TABLE_ELEMENT_NAME = 8,
    LOMPHACHIT_TABLE_ATTRIBUTE_NAME = 9
};

/* The sixteen refusals. */
enum lomphachit_refusal {
    LOMPHACHIT_ACCEPTED = 0,
    /* Document empty or over 16,384 octets; writer's text over 16,384. */
    LOMPHACHIT_REFUSED_SIZE = 1,
    /* Octets end too early, or a length passes the end. */
    LOMPHACHIT_REFUSED_TRUNCATED = 2,
    /* The first four octets are not E0 00 00 01. */
    LOMPHACHIT_REFUSED_HEADER = 3,
    /* A presence bit is 1 of a part that is not read: in the fifth octet any but that of the head,
       in a head those of external vocabulary, restricted alphabets and encoding algorithms. */
    LOMPHACHIT_REFUSED_OPTIONAL_PART = 4,
    /* Bits not assigned at this place. */
    LOMPHACHIT_REFUSED_CODE = 5,
    /* A padding bit that is not 0, or an end that does not stand where it is due. */
    LOMPHACHIT_REFUSED_PADDING = 6,
    /* Number, or count of listed entries, over 1,048,576. */
    LOMPHACHIT_REFUSED_RANGE = 7,
    /* A string in another alphabet than 1 and 2 or by another encoding algorithm than 3, 4 and 5,
       entity reference, type declaration. */
    LOMPHACHIT_REFUSED_FORMAT = 8,
    /* Octets that are no text in their form: not well-formed UTF-8 or utf-16, a half of 15 that
       does not fill up the last octet of a string in an alphabet, a part of an integer, or a
       character that XML 1.0 does not have, such as a null. */
    LOMPHACHIT_REFUSED_TEXT = 9,
    /* Number beyond its table. */
    LOMPHACHIT_REFUSED_INDEX = 10,
    /* Spelled, listed or given though the table holds it. */
    LOMPHACHIT_REFUSED_REPEAT = 11,
    /* An entry too many. */
    LOMPHACHIT_REFUSED_FULL = 12,
    /* Elements over 32 deep. */
    LOMPHACHIT_REFUSED_DEPTH = 13,
    /* Event room or output full, or a document over 16,384 octets to be written; tables or counts
       of another length. */
    LOMPHACHIT_REFUSED_ROOM = 14,
    /* No root, second root, empty list, a head that lists nothing, prefix without namespace in a
       name, octets after the end. */
    LOMPHACHIT_REFUSED_STRUCTURE = 15,
    /* Writer: an event that cannot come here, a string that is not allowed, a given entry that is
       not right, or other given words than their counts say. */
    LOMPHACHIT_REFUSED_EVENT = 16
};

/* Whether these octets are a document of the link: 0 if so, else place times 32 plus the refusal.

   Promised:
   - It answers 0 exactly for the octets that the rules of writing of X.891 write from some head and
     events, within the limits of the link.
   - Otherwise the first faulty field in octet order decides. The place is that of its first octet,
     or octets_len where that octet is missing. A name that is spelled again, or one too many, is
     refused at the octet that says which of its strings are there.
   - It answers as lomphachit_read does with room enough, so never ROOM, nor EVENT.
   - Nothing is lent and nothing is left. */
uint32_t lomphachit_check(const uint8_t *octets, size_t octets_len);

/* Reads a document into event records, tables and counts. There is room for records_len / 14
   records. The answer is taken apart by the functions below; its count is that of the events.

   Promised:
   - It accepts what the check accepts, where there is a record for each event, tables_len is
     LOMPHACHIT_TABLES and counts_len is LOMPHACHIT_COUNTS.
   - Every word lent is determined. On acceptance: the events' records, each with its place in the
     document, the tables' rows and their counts, and 0 in every word beyond the part used. On a
     refusal: 0 in all records_len, tables_len and counts_len words.
   - Where there are too few records, the place of the refusal ROOM is that of the first event
     without one.
   - Nothing that stood there before is read, and nothing of it is left.
   - Stretches are places in the document, which the caller keeps as long as the records, in the
     form in which they stand there; lomphachit_say gives their characters. A string that the head
     lists has its place there, and is in the tables from the start.

   Refusals: 1 to 15. */
uint64_t lomphachit_read(const uint8_t *octets, size_t octets_len,
                         uint32_t *records, size_t records_len,
                         uint32_t *tables, size_t tables_len,
                         uint32_t *counts, size_t counts_len);

/* How many octets lomphachit_write writes for these given words, records and text area, with the
   tables and counts that it leaves, and without output: for a caller that must know the length
   first. What given words and records are, and where a refusal's place is, stands at
   lomphachit_write below. The answer is taken apart by the functions below; its count is that of
   the octets, 16,384 at most.

   Promised:
   - It answers what lomphachit_write answers with 16,384 octets of output or more, and leaves the
     same tables and counts. So it never answers ROOM for want of output, and does for a document
     over 16,384 octets.
   - Where it gives n octets, lomphachit_write accepts exactly if n or more are lent. Then it gives
     n too, the same n octets in every such room, and the same tables and counts. With fewer it
     answers ROOM, at the first event that does not fit, or behind the last where only the
     document's end does not.
   - What it refuses, lomphachit_write refuses whatever is lent: the same at the same place, or
     ROOM if an event before that, or the head, does not fit.
   - Every word lent is determined. On acceptance: the tables' rows (places in the text area) and
     their counts, and 0 beyond the part used. On a refusal: 0 in all tables_len and counts_len
     words.
   - Nothing that stood there before is read, and nothing of it is left.
   - Given words, records and text are only read.

   Refusals: SIZE, TEXT, REPEAT (of given tables only), FULL, DEPTH, ROOM, EVENT. */
uint64_t lomphachit_measure(const uint32_t *given, size_t given_len,
                            const uint32_t *records, size_t records_len,
                            const uint8_t *text, size_t text_len,
                            uint32_t *tables, size_t tables_len,
                            uint32_t *counts, size_t counts_len);

/* Writes the document of the events in the records, whose strings are stretches of the text area,
   into the output, tables and counts. There are records_len / 14 records. Measure first: for the
   same words and text lomphachit_measure gives the octets that are enough. At most 16,384 are used.
   The answer is taken apart by the functions below; its count is that of the octets. The place of a
   refusal is an event's number from 0, or the number of events where the list stops too soon or the
   last end has no room.

   The words `given` are the tables that the document's head lists. No words, or ten that are 0, are
   none, and the document has no head. Otherwise they are ten counts in the order of the tables, and
   then three words for each entry, table by table, as lomphachit_given_words counts them: tag,
   place and length of a string, which is a stretch of the text area, in utf-8 but for values,
   chunks and other strings; or the numbers of a name's prefix, namespace and local name, 0 for
   none. The built-in entries are not among them, but the
   numbers count them. What is wrong with the given tables is refused at place 0, before event 0:
   EVENT, TEXT, REPEAT, FULL, ROOM, the first of these that is due for any of them.

   A value may be given in any form; how it is written does not depend on that. Of utf-8, alphabets
   1 and 2, short, int and long, it is written in the one that takes the fewest octets, length and
   all, among those that have its characters; of two that take as many, in the one that stands
   earlier here; and never in utf-16. Short, int and long have the characters of a value that is
   integers of so many octets in decimal, exactly as they are read: "7 -2" is, and "07", "+7", "-0"
   and "7  2" are not. One that no number names is added to its table if it has 5 octets or fewer in
   UTF-8. A row of a table has the form in which the string was given.

   Promised:
   - It accepts every list that none of the refusals below is due for: those that lomphachit_measure
     accepts, where as many octets are lent as it says. X.891's rules write these octets from these
     events, and lomphachit_read gives back the same events and tables, by characters.
   - Every octet and word lent is determined. On acceptance: the document, the tables' rows (places
     in the text area) and their counts, and 0 beyond the part used. On a refusal: 0 in all out_len
     octets and all tables_len and counts_len words.
   - Nothing that stood there before is read, and nothing of it is left.
   - Given words, records and text are only read.

   The records are the whole list: a blank one behind the last event is EVENT, so records_len is 14
   times the number of events. The place of an event (LOMPHACHIT_AT_PLACE) is not looked at: two
   lists that differ only there are written alike.

   Refusals: SIZE, TEXT, REPEAT (of given tables only), FULL, DEPTH, ROOM, EVENT. */
uint64_t lomphachit_write(const uint32_t *given, size_t given_len,
                          const uint32_t *records, size_t records_len,
                          const uint8_t *text, size_t text_len,
                          uint8_t *out, size_t out_len,
                          uint32_t *tables, size_t tables_len,
                          uint32_t *counts, size_t counts_len);

/* The parts of an answer of any of the four; a check's answer has the count 0. */

/* LOMPHACHIT_ACCEPTED, or which refusal. */
static inline uint32_t lomphachit_refusal_of(uint64_t answer) { return (uint32_t)(answer % 32); }

/* Where, for a refusal; 0 for accepted. */
static inline uint32_t lomphachit_place_of(uint64_t answer) { return (uint32_t)answer / 32; }

/* How many events were read, or octets measured or written; 0 for a refusal. */
static inline uint32_t lomphachit_count_of(uint64_t answer) { return (uint32_t)(answer >> 32); }

/* The first word of entry `number`, from 1 to the table's count, of a table. */
static inline size_t lomphachit_row(size_t table, size_t number) {
    return LOMPHACHIT_ROW * (LOMPHACHIT_ROWS * table + number - 1);
}

/* The tag of a stretch in the form that the third word of a row says. */
static inline uint32_t lomphachit_tag_of(uint32_t form) {
    return form ? form + (uint32_t)LOMPHACHIT_TAG_XML_NAMESPACE : (uint32_t)LOMPHACHIT_TAG_STRETCH;
}

/* How many words give a head that lists so many entries in all. */
static inline size_t lomphachit_given_words(size_t entries) {
    return LOMPHACHIT_COUNTS + LOMPHACHIT_ROW * entries;
}

/* Puts a character in UTF-8: one to four octets, and how many. */
static inline size_t lomphachit_put_character(uint8_t *out, uint32_t character) {
    size_t more = (size_t)((character > 0x7F) + (character > 0x7FF) + (character > 0xFFFF));
    for (size_t i = more; i > 0; i--, character >>= 6) out[i] = (uint8_t)(0x80 | character % 64);
    out[0] = (uint8_t)((more ? 0xFF00 >> (more + 1) & 0xFF : 0) | character);
    return more + 1;
}

/* Puts an integer of so many octets, the highest first, in two's complement, as decimal text: up to
   20 octets, and how many. */
static inline size_t lomphachit_put_integer(uint8_t *out, const uint8_t *at, size_t width) {
    uint64_t number = at[0] < 128 ? 0 : ~(uint64_t)0;
    size_t n = 0, digits = 1;
    for (size_t i = 0; i < width; i++) number = number << 8 | at[i];
    if (at[0] >= 128) {
        out[n++] = '-';
        number = 0 - number;
    }
    for (uint64_t rest = number / 10; rest > 0; rest /= 10) digits++;
    for (size_t i = digits; i > 0; i--, number /= 10) out[n + i - 1] = (uint8_t)('0' + number % 10);
    return n + digits;
}

/* Puts the characters of a stretch that was read, in UTF-8, and says how many octets that are:
   LOMPHACHIT_SAID times its length at most, and 0 where the string is no stretch. `octets` is the
   document, and `string` the three words of the string in a record. It is plain C of this header,
   and nothing is proved of it. */
static inline size_t lomphachit_say(const uint8_t *octets, const uint32_t *string, uint8_t *out) {
    const char *numeric = "0123456789-+.e ", *dates = "0123456789-:TZ ";
    const char *letters = string[0] == LOMPHACHIT_TAG_ALPHABET_1 ? numeric : dates;
    const uint8_t *at = octets + string[1], *end = at + string[2];
    size_t n = 0;
    for (; at < end; at++) {
        if (string[0] == LOMPHACHIT_TAG_STRETCH) out[n++] = *at;
        else if (string[0] == LOMPHACHIT_TAG_UTF_16) {
            uint32_t unit = (uint32_t)(at[0] << 8 | at[1]);
            at++;
            if (unit >> 11 == 27) { /* the first of two units */
                unit = 0x10000 + (unit % 1024 << 10) + (uint32_t)(at[1] % 4 << 8 | at[2]);
                at += 2;
            }
            n += lomphachit_put_character(out + n, unit);
        } else if (string[0] >= LOMPHACHIT_TAG_SHORT) {
            size_t width = (size_t)2 << (string[0] - (uint32_t)LOMPHACHIT_TAG_SHORT);
            if (n > 0) out[n++] = ' ';
            n += lomphachit_put_integer(out + n, at, width);
            at += width - 1;
        } else {
            out[n++] = (uint8_t)letters[*at / 16];
            if (*at % 16 < 15) out[n++] = (uint8_t)letters[*at % 16];
        }
    }
    return n;
}

/* The name of a refusal as people know it, "accepted" for 0; "unknown" for a number that no
   function answers. */
static inline const char *lomphachit_name_of(uint32_t refusal) {
    switch (refusal) {
    case LOMPHACHIT_ACCEPTED: return "accepted";
    case LOMPHACHIT_REFUSED_SIZE: return "SIZE";
    case LOMPHACHIT_REFUSED_TRUNCATED: return "TRUNCATED";
    case LOMPHACHIT_REFUSED_HEADER: return "HEADER";
    case LOMPHACHIT_REFUSED_OPTIONAL_PART: return "OPTIONAL PART";
    case LOMPHACHIT_REFUSED_CODE: return "CODE";
    case LOMPHACHIT_REFUSED_PADDING: return "PADDING";
    case LOMPHACHIT_REFUSED_RANGE: return "RANGE";
    case LOMPHACHIT_REFUSED_FORMAT: return "FORMAT";
    case LOMPHACHIT_REFUSED_TEXT: return "TEXT";
    case LOMPHACHIT_REFUSED_INDEX: return "INDEX";
    case LOMPHACHIT_REFUSED_REPEAT: return "REPEAT";
    case LOMPHACHIT_REFUSED_FULL: return "FULL";
    case LOMPHACHIT_REFUSED_DEPTH: return "DEPTH";
    case LOMPHACHIT_REFUSED_ROOM: return "ROOM";
    case LOMPHACHIT_REFUSED_STRUCTURE: return "STRUCTURE";
    case LOMPHACHIT_REFUSED_EVENT: return "EVENT";
    default: return "unknown";
    }
}

#ifdef __cplusplus
}
#endif

#endif /* LOMPHACHIT_H */
