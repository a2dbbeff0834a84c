#include "figures.h"

#include <inttypes.h>
#include <stdio.h>
#include <string.h>

void dollars_of(int64_t cents, char text[DOLLARS_LEN])
{
    uint64_t size = cents < 0 ? 0 - (uint64_t)cents : (uint64_t)cents;

    snprintf(text, DOLLARS_LEN, "%s%" PRIu64 ".%02u", cents < 0 ? "-" : "", size / 100,
             (unsigned)(size % 100));
}

void put_commas(const char *plain, char text[COMMAS_LEN])
{
    size_t before = strcspn(plain, "0123456789"), digits = strspn(plain + before, "0123456789");
    size_t i, len = 0;

    for (i = 0; plain[i] != '\0'; i++) {
        if (i > before && i < before + digits && (before + digits - i) % 3 == 0)
            text[len++] = ',';
        text[len++] = plain[i];
    }
    text[len] = '\0';
}

void dollars_with_commas(int64_t cents, char text[COMMAS_LEN])
{
    char plain[DOLLARS_LEN];

    dollars_of(cents, plain);
    put_commas(plain, text);
}

void with_commas(int64_t number, char text[COMMAS_LEN])
{
    char plain[COMMAS_LEN];

    snprintf(plain, sizeof plain, "%" PRId64, number);
    put_commas(plain, text);
}
