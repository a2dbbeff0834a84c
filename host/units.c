#include "units.h"

#include "lists.h"

#include <inttypes.h>
#include <stdio.h>
#include <string.h>

#define DIGITS "0123456789"
#define PLACES 3

/* What may be wrong with a number that has a point. */
enum trouble { NONE, NO_NUMBER, TOO_MANY_PLACES, TOO_LARGE };

/* Adds a digit to a number that is kept below 0, where there is one more. */
static enum trouble add_digit(int64_t *negative, char digit)
{
    int value = digit - '0';

    if (*negative < (INT64_MIN + value) / 10)
        return TOO_LARGE;
    *negative = *negative * 10 - value;
    return NONE;
}

/* Reads digits, with a point and up to three places where there are any. */
static enum trouble read_thousandths(const char *digits, int below_zero, int64_t *number)
{
    size_t whole = strspn(digits, DIGITS), places = 0, i;
    const char *point = digits + whole;
    int64_t negative = 0;

    if (*point == '.')
        places = strspn(point + 1, DIGITS);
    if (whole == 0 || (*point == '.' ? places == 0 || point[1 + places] : *point) != 0)
        return NO_NUMBER;
    if (places > PLACES)
        return TOO_MANY_PLACES;
    for (i = 0; i < whole + PLACES; i++) {
        char digit = i < whole ? digits[i] : i < whole + places ? point[1 + i - whole] : '0';

        if (add_digit(&negative, digit) != NONE)
            return TOO_LARGE;
    }
    if (!below_zero && negative < -INT64_MAX)
        return TOO_LARGE;
    *number = below_zero ? negative : -negative;
    return NONE;
}

static int is_whole(const char *word)
{
    const char *digits = word + (*word == '-');

    return *digits != '\0' && digits[strspn(digits, DIGITS)] == '\0';
}

static const char *read_dollars(const char *digits, int below_zero, int64_t *mills)
{
    switch (read_thousandths(digits, below_zero, mills)) {
    case NONE:
        return NULL;
    case TOO_MANY_PLACES:
        return "too many places; the smallest step of a price is a mill, so that dollars have up "
               "to three";
    case TOO_LARGE:
        return "beyond 64 bits, counted in mills";
    case NO_NUMBER:
        break;
    }
    return "not a price; write dollars as $0.63, or -$0.63 below 0";
}

const char *read_price(const char *word, int64_t *mills)
{
    const char *size = word + (*word == '-');

    if (strchr(word, ','))
        return NO_COMMAS;
    if (*size == '$')
        return read_dollars(size + 1, *word == '-', mills);
    if (!is_whole(word))
        return "not a price; put $ before dollars, as $0.63, or write whole mills, as 630";
    return read_number(word, mills);
}

static const char *read_megawatts(const char *word, int64_t *kw)
{
    switch (read_thousandths(word + (*word == '-'), *word == '-', kw)) {
    case NONE:
        return NULL;
    case TOO_MANY_PLACES:
        return "too many places; the smallest step of power is a kW, so that MW have up to three";
    case TOO_LARGE:
        return "beyond 64 bits, counted in kW";
    case NO_NUMBER:
        break;
    }
    return "not a power; write MW as 64.4 MW";
}

int is_power_unit(const char *word)
{
    return strcmp(word, "kW") == 0 || strcmp(word, "MW") == 0;
}

const char *read_power(const char *word, const char *unit, int64_t *kw)
{
    if (strchr(word, ','))
        return NO_COMMAS;
    if (unit && strcmp(unit, "MW") == 0)
        return read_megawatts(word, kw);
    if (!is_whole(word))
        return "not a power; write whole kW, as 64400, or MW, as 64.4 MW";
    return read_number(word, kw);
}

/* Writes thousandths with at least so many places after the point. */
static void thousandths_text(const char *mark, int64_t number, size_t places, const char *unit,
                             char text[UNITS_LEN])
{
    uint64_t size = number < 0 ? 0 - (uint64_t)number : (uint64_t)number;
    char decimals[PLACES + 1];
    size_t len = PLACES;

    snprintf(decimals, sizeof decimals, "%03u", (unsigned)(size % 1000));
    while (len > places && decimals[len - 1] == '0')
        len--;
    snprintf(text, UNITS_LEN, "%s%s%" PRIu64 "%s%.*s%s", number < 0 ? "-" : "", mark, size / 1000,
             len > 0 ? "." : "", (int)len, decimals, unit);
}

void dollars_text(int64_t mills, char text[UNITS_LEN])
{
    thousandths_text("$", mills, 2, "", text);
}

void megawatts_text(int64_t kw, char text[UNITS_LEN])
{
    thousandths_text("", kw, 0, " MW", text);
}

void dollars_in_message(int64_t mills, char text[COMMAS_LEN])
{
    char plain[UNITS_LEN];

    thousandths_text("$", mills, mills % 1000 == 0 ? 0 : 2, "", plain);
    put_commas(plain, text);
}

void megawatts_in_message(int64_t kw, char text[COMMAS_LEN])
{
    char plain[UNITS_LEN];

    megawatts_text(kw, plain);
    put_commas(plain, text);
}
