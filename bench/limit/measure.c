/* The measuring of the limit. */
enum { KEEP = 0 };
#include "events.h"
#include "limit.h"

uint64_t limit_measure(const uint32_t *given, size_t given_len, const uint32_t *records, size_t records_len, const uint8_t *text, size_t text_len, uint32_t *tables, size_t tables_len,
                       uint32_t *counts, size_t counts_len) {
    struct run run;
    uint64_t answer = by_lengths(text_len, tables_len, counts_len);
    run.text = text, run.end = text + text_len, run.tables = tables, run.out = run.aside, run.most = LOMPHACHIT_OCTETS;
    if (!answer) answer = events(&run, given, given_len, records, records_len / RECORD, counts);
    return leave(answer, tables, tables_len, counts, counts_len);
}
