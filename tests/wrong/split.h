/*
 * A right split in C, for the stand-ins of wz_split to go wrong at one place
 * each.
 */
#ifndef SPLIT_H
#define SPLIT_H

#include "wunzelihle.h"

static inline int64_t total_of(const uint8_t *shares, size_t count)
{
    int64_t total = 0;
    size_t i;

    for (i = 0; i < count; i++)
        total += wz_get(shares, i);
    return total;
}

/* A share's part, cut down; and whether a remainder comes before another. */
#ifndef PART_OF
#define PART_OF(size, share, total) ((size) * (share) / (total))
#endif
#ifndef BEFORE
#define BEFORE(a, b) ((a) > (b))
#endif

/* Gives the units left to the largest remainders, the earlier first. */
static inline void give_left(int64_t *part, int64_t *remainder, size_t count, int64_t left)
{
    for (; left > 0; left--) {
        size_t largest = 0, i;

        for (i = 1; i < count; i++)
            if (BEFORE(remainder[i], remainder[largest]))
                largest = i;
        part[largest]++;
        remainder[largest] = -1;
    }
}

static inline uint32_t right_split(int64_t amount, const uint8_t *shares, size_t shares_len,
                                   uint8_t *parts, size_t parts_len)
{
    int64_t size, left, total, part[64], remainder[64];
    size_t count = shares_len / 8, i;

    if (shares_len % 8 || count < 1 || count > 64 || parts_len != shares_len)
        return WZ_LENGTH;
    if (amount < -1000000000 || amount > 1000000000)
        return WZ_RANGE;
    for (i = 0; i < count; i++)
        if (wz_get(shares, i) < 0 || wz_get(shares, i) > 4000000000)
            return WZ_RANGE;
    total = total_of(shares, count);
    if (total == 0 && amount != 0)
        return WZ_NO_SHARES;

    size = left = amount < 0 ? -amount : amount;
    for (i = 0; i < count; i++) {
        part[i] = total ? PART_OF(size, wz_get(shares, i), total) : 0;
        remainder[i] = size * wz_get(shares, i) - part[i] * total;
        left -= part[i];
    }
    give_left(part, remainder, count, left);
    for (i = 0; i < count; i++)
        wz_put(parts, i, amount < 0 ? -part[i] : part[i]);
    return WZ_OK;
}

#endif
