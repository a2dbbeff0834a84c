/* wz_counts in C, right but for its MISTAKE. */
#include "exercise.h"

uint32_t wz_counts(const uint8_t *file, size_t file_len, uint8_t *counts, size_t counts_len)
{
    struct header header;
    size_t right = WZ_NUMBER * WZ_COUNT_NUMBERS;
    uint32_t answer = read_header(&header, file, file_len);
    int fits = counts_len == right || (MISTAKE == LISTS_LONGER && counts_len > right) ||
               (MISTAKE == LENGTHS_CUT && counts_len / WZ_NUMBER == WZ_COUNT_NUMBERS);
    size_t exchanged = MISTAKE == FIELDS_EXCHANGED;

    if (MISTAKE == LISTS_FIRST && !fits)
        return WZ_LENGTH;
    if (MISTAKE == REST_TESTED && answer == WZ_OK && test_rest(file, &header) != WZ_OK)
        return test_rest(file, &header);
    if (MISTAKE == WRITTEN_EARLY && file_len >= 5 && fits)
        wz_put(counts, 0, bits_of(file, 0, 6) + 1);
    if (answer != WZ_OK)
        return answer;
    if (!fits)
        return WZ_LENGTH;
    if (MISTAKE == WRITES_NOTHING)
        return WZ_OK;
    wz_put(counts, 0, (int64_t)header.participants - (MISTAKE == COUNTS_AS_THEY_ARE ? 1 : 0));
    wz_put(counts, 1, (int64_t)header.locations);
    wz_put(counts, 2 + exchanged, (int64_t)header.rows);
    wz_put(counts, 3 - exchanged, (int64_t)header.transactions);
    if (MISTAKE != EDITION_LEFT)
        wz_put(counts, 4, header.edition);
    return WZ_OK;
}
