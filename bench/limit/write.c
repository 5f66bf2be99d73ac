/* The write of the limit. */
enum { KEEP = 1 };
#include "events.h"
#include "limit.h"

uint64_t limit_write(const uint32_t *given, size_t given_len, const uint32_t *records, size_t records_len, const uint8_t *text, size_t text_len, uint8_t *out, size_t out_len,
                     uint32_t *tables, size_t tables_len, uint32_t *counts, size_t counts_len) {
    struct run run;
    uint64_t answer = by_lengths(text_len, tables_len, counts_len);
    run.text = text, run.end = text + text_len, run.tables = tables, run.out = out, run.most = out_len < LOMPHACHIT_OCTETS ? out_len : LOMPHACHIT_OCTETS;
    if (!answer) answer = events(&run, given, given_len, records, records_len / RECORD, counts);
    size_t used = lomphachit_count_of(answer);
    memset(out + used, 0, out_len - used);
    return leave(answer, tables, tables_len, counts, counts_len);
}
