/* A sum of signed numbers overflows: a checker of undefined behaviour sees that. */
#include "split.h"

uint32_t wz_split(int64_t amount, const uint8_t *shares, size_t shares_len, uint8_t *parts,
                  size_t parts_len)
{
    volatile int64_t sum = INT64_MAX - amount;

    sum = sum + amount + 1;
    return right_split(amount, shares, shares_len, parts, parts_len);
}
