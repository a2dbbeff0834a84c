/* Of equal remainders the later party comes first. */
#define BEFORE(a, b) ((a) >= (b))
#include "split.h"

uint32_t wz_split(int64_t amount, const uint8_t *shares, size_t shares_len, uint8_t *parts,
                  size_t parts_len)
{
    return right_split(amount, shares, shares_len, parts, parts_len);
}
