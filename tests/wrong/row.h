/* The decoding of one row in C, right but for its MISTAKE. */
#include "exercise.h"
#include "probe.h"

uint32_t probe_row(int64_t participants, int64_t locations,
                   const uint8_t *row, size_t row_len,
                   uint8_t *fields, size_t fields_len)
{
    struct row decoded;
    uint32_t answer;

    (void)fields_len;
    if (participants < 1 || participants > 64 || locations < 1 || locations > 64)
        return WZ_LENGTH;
    if (row_len != 6)
        return WZ_FILE;
    answer = read_row(&decoded, row, participants, locations);
    if (answer != WZ_OK)
        return answer;
    wz_put(fields, 0, decoded.market);
    wz_put(fields, 1, decoded.kind);
    wz_put(fields, 2, decoded.interval);
    wz_put(fields, 3, decoded.participant);
    wz_put(fields, 4, decoded.location);
    wz_put(fields, 5, decoded.kw);
    return WZ_OK;
}
