/* The check of the limit. */
enum { KEEP = 0 };
#include "items.h"
#include "limit.h"

uint32_t limit_check(const uint8_t *octets, size_t octets_len) {
    uint32_t refusal = opening(octets, octets_len);
    return refusal ? refusal : (uint32_t)items(octets, octets_len, NULL);
}
