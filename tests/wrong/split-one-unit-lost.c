/* One unit too few is handed out: the party that comes last among those with a
 * unit gets none. */
#include "split.h"

uint32_t wz_split(int64_t amount, const uint8_t *shares, size_t shares_len, uint8_t *parts,
                  size_t parts_len)
{
    uint32_t answer = right_split(amount, shares, shares_len, parts, parts_len);
    size_t count = shares_len / 8, i, last = count;
    int64_t total, least = 0;

    if (answer != WZ_OK || amount == 0)
        return answer;
    total = total_of(shares, count);
    for (i = 0; i < count; i++) {
        int64_t product = amount * wz_get(shares, i);
        int64_t rest = product % total < 0 ? -(product % total) : product % total;

        if (wz_get(parts, i) != product / total && (last == count || rest <= least)) {
            last = i;
            least = rest;
        }
    }
    if (last < count)
        wz_put(parts, last, wz_get(parts, last) + (amount < 0 ? 1 : -1));
    return answer;
}
