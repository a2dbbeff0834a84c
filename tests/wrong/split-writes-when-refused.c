/* A refused call clears the output list. */
#include "split.h"

#include <string.h>

uint32_t wz_split(int64_t amount, const uint8_t *shares, size_t shares_len, uint8_t *parts,
                  size_t parts_len)
{
    uint32_t answer = right_split(amount, shares, shares_len, parts, parts_len);

    if (answer != WZ_OK && parts_len > 0)
        memset(parts, 0, parts_len);
    return answer;
}
