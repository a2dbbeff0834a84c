/* The check of a file and the reader in C, right but for their MISTAKE. */
#include "exercise.h"
#include "probe.h"

#include <string.h>

uint32_t probe_check(const uint8_t *file, size_t file_len)
{
    struct header header;
    uint32_t answer = read_header(&header, file, file_len);

    return answer == WZ_OK ? test_rest(file, &header) : answer;
}

uint64_t probe_rows(const uint8_t *file, size_t file_len, uint8_t *rows, size_t rows_len)
{
    struct header header;
    size_t start, len;

    if (read_header(&header, file, file_len) != WZ_OK)
        return 0;
    if (MISTAKE != STRETCH_OF_REFUSED && test_rest(file, &header) != WZ_OK)
        return 0;
    start = 5 + 3 * prices_of(&header) - (MISTAKE == STRETCH_EARLY ? 1 : 0);
    len = 6 * header.rows;
    if (rows_len == len && len != 0)
        memcpy(rows, file + start, len);
    return len;
}
