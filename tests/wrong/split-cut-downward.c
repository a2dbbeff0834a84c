/* A negative amount is cut downward in place of toward zero. */
#include "split.h"

uint32_t wz_split(int64_t amount, const uint8_t *shares, size_t shares_len, uint8_t *parts,
                  size_t parts_len)
{
    uint32_t answer = right_split(amount, shares, shares_len, parts, parts_len);
    size_t count = shares_len / 8, i;
    int64_t total, left = amount, part[64], remainder[64];

    if (answer != WZ_OK || amount >= 0)
        return answer;
    total = total_of(shares, count);
    for (i = 0; i < count; i++) {
        int64_t product = amount * wz_get(shares, i);

        part[i] = product / total - (product % total != 0);
        remainder[i] = product - part[i] * total;
        left -= part[i];
    }
    give_left(part, remainder, count, left);
    for (i = 0; i < count; i++)
        wz_put(parts, i, part[i]);
    return answer;
}
