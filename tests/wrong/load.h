/* wz_assign_load in C, right but for its MISTAKE. */
#include "mistake.h"
#include "split.h"

#include <string.h>

#define PARTICIPANTS 64
#define MOST_KW 20000000
#define WHOLE 1000000

/* Every step-th number from the first on is from low to high. */
static int within(const uint8_t *list, size_t len, size_t first, size_t step, int64_t low,
                  int64_t high)
{
    size_t i;

    for (i = first; i < len / 8; i += step)
        if (wz_get(list, i) < low || wz_get(list, i) > high)
            return 0;
    return 1;
}

/* Adds what a split gives each party to a number every step, and takes it away. */
static void share_out(int64_t kw, const uint8_t *shares, size_t count, int64_t *to, size_t step,
                      int64_t *from)
{
    uint8_t parts[8 * 64];
    size_t i;

    right_split(kw, shares, 8 * count, parts, 8 * count);
    for (i = 0; i < count; i++) {
        to[i * step] += wz_get(parts, i);
        if (from)
            from[i] -= wz_get(parts, i);
    }
}

uint32_t wz_assign_load(int64_t metered, int64_t distributor,
                        const uint8_t *loads, size_t loads_len,
                        const uint8_t *imports, size_t imports_len,
                        const uint8_t *generation, size_t generation_len,
                        int64_t areas,
                        const uint8_t *area_parts, size_t area_parts_len,
                        const uint8_t *contracts, size_t contracts_len,
                        const uint8_t *tranches, size_t tranches_len,
                        uint8_t *out, size_t out_len)
{
    size_t buses = loads_len / 8, count = contracts_len / 24, i, b;
    int64_t kw[PARTICIPANTS * 64] = {0}, rest[64] = {0}, contract_kw[256];

    if (loads_len % 8 || buses < 1 || buses > 64)
        return WZ_LENGTH;
    if (imports_len % 8 || imports_len > 8 * 64 || generation_len % 8 || generation_len > 8 * 64)
        return WZ_LENGTH;
    if (areas < 0 || areas > 16 || area_parts_len != 8 * (size_t)areas * buses)
        return WZ_LENGTH;
    if (contracts_len % 24 || count > 256 || tranches_len != 8 * PARTICIPANTS)
        return WZ_LENGTH;
    if (out_len != 8 * PARTICIPANTS * buses)
        return WZ_LENGTH;

    if (metered != 0 && metered != 1)
        return WZ_RANGE;
    if (!within(loads, loads_len, 0, 1, 0, MOST_KW) ||
        !within(imports, imports_len, 0, 1, -MOST_KW, MOST_KW) ||
        !within(generation, generation_len, 0, 1, 0, MOST_KW) ||
        !within(area_parts, area_parts_len, 0, 1, 0, WHOLE))
        return WZ_RANGE;
    if (MISTAKE != CONTRACTS_IN_TURN && !within(contracts, contracts_len, 2, 3, 0, MOST_KW))
        return WZ_RANGE;
    if (!within(tranches, tranches_len, 0, 1, 0, 10000))
        return WZ_RANGE;

    if (distributor < 0 || distributor >= PARTICIPANTS)
        return WZ_IDENTITY;
    for (i = 0; i < count; i++) {
        if (!within(contracts + 24 * i, 8, 0, 1, 0, PARTICIPANTS - 1) ||
            !within(contracts + 24 * i, 16, 1, 1, 0, areas - 1))
            return WZ_IDENTITY;
        if (!within(contracts + 24 * i, 24, 2, 1, 0, MOST_KW))
            return WZ_RANGE; /* only where CONTRACTS_IN_TURN */
    }

    for (i = 0; i < (size_t)areas; i++)
        if (total_of(area_parts + 8 * i * buses, buses) != WHOLE)
            return WZ_AREA_PARTS;

    if (metered) {
        int64_t total =
            total_of(imports, imports_len / 8) + total_of(generation, generation_len / 8);

        if (total < 0 || total > MOST_KW)
            return WZ_METERED_LOAD;
        if (total != 0 && total_of(loads, buses) == 0)
            return WZ_NO_SHARES;
        share_out(total, loads, buses, rest, 1, NULL);
    } else {
        for (b = 0; b < buses; b++)
            rest[b] = wz_get(loads, b);
    }

    for (i = 0; i < count; i++) {
        contract_kw[i] = wz_get(contracts, 3 * i + 2);
        if (MISTAKE == CONTRACTS_TOGETHER && i > 0 &&
            memcmp(contracts + 24 * i, contracts + 24 * (i - 1), 16) == 0) {
            contract_kw[i] += contract_kw[i - 1];
            contract_kw[i - 1] = 0;
        }
    }
    for (i = 0; i < count; i++) {
        size_t supplier = (size_t)wz_get(contracts, 3 * i);
        size_t area = (size_t)wz_get(contracts, 3 * i + 1);

        share_out(contract_kw[i], area_parts + 8 * area * buses, buses, kw + supplier * buses, 1,
                  rest);
    }
    for (b = 0; b < buses; b++)
        if (rest[b] < 0)
            return WZ_CONTRACTS;

    for (b = 0; b < buses; b++) {
        if (total_of(tranches, PARTICIPANTS) == 0 || MISTAKE == REST_TO_DISTRIBUTOR)
            kw[(size_t)distributor * buses + b] += rest[b];
        else
            share_out(rest[b], tranches, PARTICIPANTS, kw + b, buses, NULL);
    }
    for (i = 0; i < PARTICIPANTS * buses; i++)
        wz_put(out, i, kw[i]);
    return WZ_OK;
}
