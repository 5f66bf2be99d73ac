/* The read of the limit. */
enum { KEEP = 1 };
#include "items.h"
#include "limit.h"

uint64_t limit_read(const uint8_t *octets, size_t octets_len, uint32_t *records, size_t records_len, uint32_t *tables, size_t tables_len, uint32_t *counts, size_t counts_len) {
    const struct room room = {records, tables, counts, records_len / RECORD};
    uint64_t answer = opening(octets, octets_len);
    if (answer != REFUSED(SIZE) && (tables_len != LOMPHACHIT_TABLES || counts_len != LOMPHACHIT_COUNTS)) answer = REFUSED(ROOM);
    if (!answer) answer = items(octets, octets_len, &room);
    size_t used = (size_t)lomphachit_count_of(answer) * RECORD;
    memset(records + used, 0, (records_len - used) * sizeof *records);
    if (!lomphachit_refusal_of(answer)) return answer;
    memset(tables, 0, tables_len * sizeof *tables);
    memset(counts, 0, counts_len * sizeof *counts);
    return answer;
}
