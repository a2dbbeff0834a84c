/* The odd units go to the last party. */
#include "split.h"

uint32_t wz_split(int64_t amount, const uint8_t *shares, size_t shares_len, uint8_t *parts,
                  size_t parts_len)
{
    uint32_t answer = right_split(amount, shares, shares_len, parts, parts_len);
    size_t count = shares_len / 8, i;
    int64_t total, left = amount;

    if (answer != WZ_OK || amount == 0)
        return answer;
    total = total_of(shares, count);
    for (i = 0; i + 1 < count; i++) {
        int64_t part = amount * wz_get(shares, i) / total;

        wz_put(parts, i, part);
        left -= part;
    }
    wz_put(parts, count - 1, left);
    return answer;
}
