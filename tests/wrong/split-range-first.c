/* The amount's range is tested before the lengths. */
#include "split.h"

uint32_t wz_split(int64_t amount, const uint8_t *shares, size_t shares_len, uint8_t *parts,
                  size_t parts_len)
{
    if (amount < -1000000000 || amount > 1000000000)
        return WZ_RANGE;
    return right_split(amount, shares, shares_len, parts, parts_len);
}
