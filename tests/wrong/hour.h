/*
 * wz_settle_hour in C, right but for its MISTAKE, and for its split where SPLIT
 * names another than the right one.
 */
#include "charges.h"
#include "split.h"

#ifndef SPLIT
#define SPLIT right_split
#endif

/* What is wrong with a surplus, or the answer of its split. */
static uint32_t split_surplus(int64_t surplus, const uint8_t *shares, uint8_t *parts,
                              size_t participants)
{
    size_t len = 8 * participants;
    uint32_t answer;

    if (MISTAKE == NO_SHARES_FIRST && surplus != 0 && total_of(shares, participants) == 0)
        return WZ_NO_SHARES;
    if (MISTAKE == IDLE_SHARES_UNTESTED && surplus == 0) {
        memset(parts, 0, len);
        return WZ_OK;
    }
    answer = SPLIT(surplus, shares, len, parts, len);
    return answer == WZ_RANGE ? WZ_SURPLUS : answer;
}

uint32_t wz_settle_hour(const uint8_t *file, size_t file_len,
                        uint8_t *congestion, size_t congestion_len,
                        uint8_t *loss, size_t loss_len,
                        uint8_t *credit, size_t credit_len,
                        uint8_t *net, size_t net_len)
{
    static struct account account;
    uint8_t charges[2][8 * 64], shares[8 * 64], parts[8 * 64], nets[8 * 64];
    struct header header;
    uint32_t answer = read_header(&header, file, file_len);
    size_t len, i;

    if (MISTAKE == REFUSES_ALL)
        return WZ_FILE;
    if (MISTAKE == LISTS_FIRST && (congestion_len % 8 || loss_len != congestion_len ||
                                   credit_len != congestion_len || net_len != congestion_len))
        return WZ_LENGTH;
    if (answer != WZ_OK)
        return answer;
    len = 8 * header.participants;
    if (congestion_len != len || loss_len != len || credit_len != len || net_len != len)
        return WZ_LENGTH;
    answer = test_rest(file, &header);
    if (answer != WZ_OK)
        return answer;

    for (i = 0; i < header.participants; i++) {
        int64_t participant = (int64_t)i;
        size_t half = prices_of(&header) / 2;

        open_account(&account, file, &header, participant);
        wz_put(charges[0], i, charge_of(&account, file, &header, 0, participant));
        wz_put(charges[1], i, charge_of(&account, file, &header, half, participant));
        wz_put(shares, i, account.share);
    }
    if (MISTAKE == WRITTEN_EARLY)
        memcpy(congestion, charges[0], len);

    answer = split_surplus(total_of(charges[1], header.participants), shares, parts,
                           header.participants);
    if (answer != WZ_OK || MISTAKE == WRITES_NOTHING)
        return answer;
    for (i = 0; i < header.participants; i++)
        wz_put(nets, i, wz_get(charges[0], i) + wz_get(charges[1], i) - wz_get(parts, i));
    if (MISTAKE == CONSTANTS) {
        memset(charges, 0, sizeof charges);
        memset(parts, 0, sizeof parts);
        memset(nets, 0, sizeof nets);
    }
    memcpy(congestion, charges[0], len);
    memcpy(loss, charges[1], len);
    memcpy(credit, parts, len);
    memcpy(net, nets, len);
    return WZ_OK;
}
