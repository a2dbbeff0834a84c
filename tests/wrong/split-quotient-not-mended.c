/*
 * A part is the ratio of size to total, in 2^34ths, times the share, which may be
 * one less than the quotient.
 */
#define PART_OF(size, share, total)                                                                \
    ((int64_t)(((uint64_t)(size) << 34) / (uint64_t)(total) * (uint64_t)(share) >> 34))
#include "split.h"

uint32_t wz_split(int64_t amount, const uint8_t *shares, size_t shares_len, uint8_t *parts,
                  size_t parts_len)
{
    return right_split(amount, shares, shares_len, parts, parts_len);
}
