/* The limit: the four functions of include/lomphachit.h in C, written for the fewest instructions that one reasonably can. Same answers, same words, same refusals and
   places, but without proof and with no bounds tested where the document does not ask for it. Nothing but the bench links it. */
#ifndef LIMIT_H
#define LIMIT_H

#include <stddef.h>
#include <stdint.h>

uint32_t limit_check(const uint8_t *octets, size_t octets_len);
uint64_t limit_read(const uint8_t *octets, size_t octets_len, uint32_t *records, size_t records_len, uint32_t *tables, size_t tables_len, uint32_t *counts, size_t counts_len);
uint64_t limit_write(const uint32_t *given, size_t given_len, const uint32_t *records, size_t records_len, const uint8_t *text, size_t text_len, uint8_t *out, size_t out_len,
                     uint32_t *tables, size_t tables_len, uint32_t *counts, size_t counts_len);
uint64_t limit_measure(const uint32_t *given, size_t given_len, const uint32_t *records, size_t records_len, const uint8_t *text, size_t text_len, uint32_t *tables, size_t tables_len,
                       uint32_t *counts, size_t counts_len);

#endif
