/* A call takes more stack than the header states. */
#include "split.h"

uint32_t wz_split(int64_t amount, const uint8_t *shares, size_t shares_len, uint8_t *parts,
                  size_t parts_len)
{
    volatile uint8_t deep[8 * 1024];

    deep[0] = 0;
    return right_split(amount, shares, shares_len, parts, parts_len) + deep[0];
}
