/* A choice hangs on a byte that nobody wrote: valgrind sees that. */
#include "split.h"

#include <stdlib.h>

uint32_t wz_split(int64_t amount, const uint8_t *shares, size_t shares_len, uint8_t *parts,
                  size_t parts_len)
{
    uint8_t *volatile byte = malloc(1);
    volatile int chosen = 0;

    if (byte && *byte == 1)
        chosen = 1;
    (void)chosen;
    free(byte);
    return right_split(amount, shares, shares_len, parts, parts_len);
}
