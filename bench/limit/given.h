/* Given tables for the limit's run over events: judged as one thing, then written as the document's head, or counted. */
#ifndef LIMIT_GIVEN_H
#define LIMIT_GIVEN_H

enum { COUNTS = LOMPHACHIT_COUNTS, ROW = LOMPHACHIT_ROW };

/* No words, or ten counts and so many entries. */
ALWAYS int is_given(const uint32_t *given, size_t n) {
    uint64_t entries = 0;
    if (n == 0) return 1;
    if (n < COUNTS) return 0;
    for (size_t i = 0; i < COUNTS; i++) entries += given[i];
    return n == COUNTS + ROW * entries;
}

ALWAYS uint64_t entries_of(const uint32_t *given, uint32_t table) { return (uint64_t)given[table] + (table <= NAMESPACE); }

/* All strings are stretches of the text area, and all names have parts that are there. */
ALWAYS int well_given(const struct run *run, const uint32_t *given) {
    const uint32_t *entry = given + COUNTS;
    for (uint32_t table = 0; table < ELEMENT; table++)
        for (uint32_t i = 0; i < given[table]; i++, entry += ROW)
            if ((entry[0] != TAG(STRETCH) && (table <= URI || !is_formed(entry[0]))) || !entry[2] || (uint64_t)entry[1] + entry[2] > (uint64_t)(run->end - run->text)) return 0;
    for (uint32_t i = 0; i < given[ELEMENT] + given[ATTRIBUTE]; i++, entry += ROW)
        if (!entry[2] || (entry[0] && !entry[1]) || entry[0] > entries_of(given, PREFIX) || entry[1] > entries_of(given, NAMESPACE) || entry[2] > given[LOCAL]) return 0;
    return 1;
}

ALWAYS int text_given(const struct run *run, const uint32_t *given) {
    const uint32_t *entry = given + COUNTS;
    for (uint32_t table = 0; table < ELEMENT; table++)
        for (uint32_t i = 0; i < given[table]; i++, entry += ROW)
            if (unlikely(is_formed(entry[0])) ? !is_text_in(entry[0], run->text + entry[1], entry[2]) : !is_text(run->text + entry[1], entry[2], run->end)) return 0;
    return 1;
}

/* Whether two of many entries are the same, or one is built in: for more than a table has. */
NEVER int repeated(const struct run *run, uint32_t table, const uint32_t *entry, size_t n) {
    for (size_t i = 0; i < n; i++) {
        const uint32_t *x = entry + ROW * i;
        if (table < ELEMENT && built_in(table, run->text + x[1], x[2])) return 1;
        for (const uint32_t *y = entry; y < x; y += ROW)
            if (table < ELEMENT ? x[2] == y[2] && !memcmp(run->text + x[1], run->text + y[1], x[2]) : !memcmp(x, y, ROW * sizeof *x)) return 1;
    }
    return 0;
}

/* A listed string; one in another form is put in UTF-8. */
ALWAYS struct string listed_string(struct run *run, const uint32_t *entry) {
    struct string x = {entry[0], entry[1], entry[2], entry[2], 0, 0};
    if (unlikely(is_formed(x.tag))) x.octets = say(run, &x, run->said);
    return x;
}

/* A table gets the strings; 0 where one may not be listed again. Of values that are, the lowest number is found. */
ALWAYS int add_strings(struct run *run, uint32_t table, const uint32_t *entry, size_t n) {
    for (size_t i = 0; i < n; i++, entry += ROW) {
        struct string x = listed_string(run, entry);
        uint32_t found = likely(!is_formed(x.tag)) ? search(run, table, x.place, x.length, &x.hash) : search_said(run, table, &x);
        if (found && table <= URI) return 0;
        if (found) put_string_row(run, table, ++run->counts[table], &x);
        else add(run, table, &x);
        if (table > URI && x.octets > run->longest[table]) run->longest[table] = x.octets;
    }
    return 1;
}

ALWAYS int add_names(struct run *run, uint32_t table, const uint32_t *entry, size_t n) {
    struct names *names = &run->names[table - ELEMENT];
    memset(names->first, 0, sizeof names->first);
    for (size_t i = 0; i < n; i++, entry += ROW) {
        uint32_t key = key_of(entry[0], entry[1], entry[2]);
        if (find_name(names, key)) return 0;
        put_row(run->tables, table, ++run->counts[table], entry[0], entry[1], entry[2]);
        add_name(names, run->counts[table], key);
    }
    return 1;
}

/* Fills the tables. Where one would be too full, the others are still looked through for a repeat, which is said first. */
ALWAYS uint32_t add_given(struct run *run, const uint32_t *given) {
    const uint32_t *entry = given + COUNTS;
    uint32_t full = 0;
    for (uint32_t table = 0; table < COUNTS; entry += ROW * (size_t)given[table++]) {
        if (!given[table]) continue;
        if (table >= ELEMENT ? full || given[table] > ROWS : entries_of(given, table) > ROWS) {
            full |= entries_of(given, table) > ROWS;
            if ((table <= URI || table >= ELEMENT) && repeated(run, table, entry, given[table])) return REFUSED(REPEAT);
        } else if (!(table < ELEMENT ? add_strings(run, table, entry, given[table]) : add_names(run, table, entry, given[table]))) return REFUSED(REPEAT);
    }
    return full ? REFUSED(FULL) : 0;
}

ALWAYS uint8_t *put_count(uint8_t *to, uint32_t n) {
    return n <= 128 ? put(to, n - 1) : put(put(put(to, 0x80), 0), n - 129);
}

ALWAYS uint8_t *put_listed(struct run *run, uint8_t *to, uint32_t table, const uint32_t *entry) {
    if (table < ELEMENT) {
        struct string x = listed_string(run, entry);
        return table <= URI ? spell_identifying(run, to, &x) : spell_shortest(run, to, 0, 5, &x);
    }
    to = put(to, (entry[0] > 0) << 1 | (entry[1] > 0));
    for (int i = 0; i < ROW; i++)
        if (entry[i]) to = put_number(to, 0, 2, entry[i]);
    return to;
}

/* Header and head, in room that may be too small. */
ALWAYS uint32_t put_head(struct run *run, struct hand *h, const uint32_t *given) {
    const uint32_t *entry = given + COUNTS;
    uint32_t listed = 0, refusal;
    for (uint32_t table = 0; table < COUNTS; table++) listed = listed << 1 | (given[table] > 0);
    uint8_t *from = room_for(run, h, 0), *to = from;
    const uint8_t opening[] = {0xE0, 0, 0, 1, 0x20, (uint8_t)(listed >> 8), (uint8_t)listed};
    if (KEEP) memcpy(to, opening, sizeof opening);
    to += sizeof opening;
    if ((refusal = keep(run, h, from, to))) return refusal;
    for (uint32_t table = 0; table < COUNTS; table++) {
        if (!given[table]) continue;
        from = room_for(run, h, 0);
        if ((refusal = keep(run, h, from, put_count(from, given[table])))) return refusal;
        for (uint32_t i = 0; i < given[table]; i++, entry += ROW) {
            from = room_for(run, h, table < ELEMENT ? (size_t)LOMPHACHIT_SAID * entry[2] : 0);
            if ((refusal = keep(run, h, from, put_listed(run, from, table, entry)))) return refusal;
        }
    }
    return 0;
}

/* *at is then behind the head, which there is none of where nothing is listed. */
NEVER uint32_t head(struct run *run, size_t *at, const uint32_t *given, size_t n) {
    if (!is_given(given, n)) return REFUSED(EVENT);
    if (n <= COUNTS) return 0;
    if (!well_given(run, given)) return REFUSED(EVENT);
    if (!text_given(run, given)) return REFUSED(TEXT);
    uint32_t refusal = add_given(run, given);
    if (refusal) return refusal;
    struct hand h = {0, 0, CONTENT, 0, 0, 0};
    refusal = put_head(run, &h, given);
    *at = h.at;
    return refusal;
}

#endif
