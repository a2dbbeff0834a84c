/* One byte is written behind the output list. */
#include "split.h"

uint32_t wz_split(int64_t amount, const uint8_t *shares, size_t shares_len, uint8_t *parts,
                  size_t parts_len)
{
    uint32_t answer = right_split(amount, shares, shares_len, parts, parts_len);

    if (answer == WZ_OK)
        parts[parts_len] = 0;
    return answer;
}
