/* One byte behind the list is read: a memory checker sees that. */
#include "split.h"

uint32_t wz_split(int64_t amount, const uint8_t *shares, size_t shares_len, uint8_t *parts,
                  size_t parts_len)
{
    volatile uint8_t behind = shares_len > 0 ? shares[shares_len] : 0;

    (void)behind;
    return right_split(amount, shares, shares_len, parts, parts_len);
}
