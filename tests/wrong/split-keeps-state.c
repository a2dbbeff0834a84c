/* The same amount twice in a row gives another answer the second time. */
#include "split.h"

uint32_t wz_split(int64_t amount, const uint8_t *shares, size_t shares_len, uint8_t *parts,
                  size_t parts_len)
{
    static int64_t last;
    uint32_t answer = right_split(amount, shares, shares_len, parts, parts_len);

    if (answer == WZ_OK && amount == last)
        wz_put(parts, 0, 0);
    last = amount;
    return answer;
}
