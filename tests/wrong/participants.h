/* wz_participants in C, right but for its MISTAKE. */
#include "exercise.h"

uint32_t wz_participants(const uint8_t *file, size_t file_len)
{
    struct header header;
    size_t enough = MISTAKE == HEADER_CUT ? 1 : 5;

    if (file_len < enough)
        return 0;
    if (MISTAKE == REST_TESTED && read_header(&header, file, file_len) != WZ_OK)
        return 0;
    if (MISTAKE == LOCATIONS_COUNTED)
        return (uint32_t)bits_of(file, 6, 6) + 1;
    return (uint32_t)bits_of(file, 0, 6) + (MISTAKE == COUNTS_AS_THEY_ARE ? 0 : 1);
}
