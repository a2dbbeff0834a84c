/* Each part is rounded to the nearest unit alone. */
#include "split.h"

uint32_t wz_split(int64_t amount, const uint8_t *shares, size_t shares_len, uint8_t *parts,
                  size_t parts_len)
{
    uint32_t answer = right_split(amount, shares, shares_len, parts, parts_len);
    size_t count = shares_len / 8, i;
    int64_t total;

    if (answer != WZ_OK || amount == 0)
        return answer;
    total = total_of(shares, count);
    for (i = 0; i < count; i++) {
        int64_t twice = 2 * amount * wz_get(shares, i);

        wz_put(parts, i, (twice + (amount < 0 ? -total : total)) / (2 * total));
    }
    return answer;
}
