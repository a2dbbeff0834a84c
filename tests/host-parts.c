/*
 * Tests what the program's parts do with numbers that no answer of the engine
 * and no word brings to them: the least and the largest of 64 bits.
 */
#include "figures.h"
#include "lists.h"
#include "units.h"

#include <inttypes.h>
#include <stdio.h>
#include <string.h>

static int same(const char *what, const char *expected, const char *text)
{
    if (strcmp(expected, text) == 0)
        return 1;
    printf("%s: '%s', '%s' is expected\n", what, text, expected);
    return 0;
}

static int is_dollars(const char *expected, int64_t cents)
{
    char text[DOLLARS_LEN];

    dollars_of(cents, text);
    return same("dollars", expected, text);
}

static int dollars_are_right(void)
{
    return is_dollars("0.00", 0) & is_dollars("0.01", 1) & is_dollars("-0.01", -1) &
           is_dollars("0.99", 99) & is_dollars("1.00", 100) & is_dollars("-1.00", -100) &
           is_dollars("-0.73", -73) & is_dollars("92233720368547758.07", INT64_MAX) &
           is_dollars("-92233720368547758.08", INT64_MIN);
}

/* A number, and as many cents, are written so with commas. */
static int has_commas(int64_t number, const char *whole, const char *dollars)
{
    char text[COMMAS_LEN];
    int right;

    with_commas(number, text);
    right = same("commas", whole, text);
    dollars_with_commas(number, text);
    return right & same("dollars with commas", dollars, text);
}

static int commas_are_right(void)
{
    return has_commas(0, "0", "0.00") & has_commas(-1, "-1", "-0.01") &
           has_commas(999, "999", "9.99") & has_commas(1000, "1,000", "10.00") &
           has_commas(-1000, "-1,000", "-10.00") & has_commas(99999, "99,999", "999.99") &
           has_commas(100000, "100,000", "1,000.00") &
           has_commas(-123456, "-123,456", "-1,234.56") &
           has_commas(1000000001, "1,000,000,001", "10,000,000.01") &
           has_commas(INT64_MAX, "9,223,372,036,854,775,807", "92,233,720,368,547,758.07") &
           has_commas(INT64_MIN, "-9,223,372,036,854,775,808", "-92,233,720,368,547,758.08");
}

/* Mills are written so in dollars and kW in MW, and are read back. */
static int is_written(int64_t number, const char *dollars, const char *megawatts)
{
    char text[UNITS_LEN];
    int64_t mills = 0, kw = 0;
    int right;

    dollars_text(number, text);
    right = same("mills", dollars, text) && read_price(text, &mills) == NULL && mills == number;
    megawatts_text(number, text);
    right &= same("kW", megawatts, text);
    text[strcspn(text, " ")] = '\0';
    right &= read_power(text, "MW", &kw) == NULL && kw == number;
    if (!right)
        printf("%" PRId64 " isn't read back\n", number);
    return right;
}

static int units_are_right(void)
{
    return is_written(0, "$0.00", "0 MW") & is_written(1, "$0.001", "0.001 MW") &
           is_written(-1, "-$0.001", "-0.001 MW") & is_written(10, "$0.01", "0.01 MW") &
           is_written(-100, "-$0.10", "-0.1 MW") & is_written(1000, "$1.00", "1 MW") &
           is_written(64400, "$64.40", "64.4 MW") & is_written(-5000000, "-$5000.00", "-5000 MW") &
           is_written(20000000, "$20000.00", "20000 MW") &
           is_written(INT64_MAX, "$9223372036854775.807", "9223372036854775.807 MW") &
           is_written(INT64_MIN, "-$9223372036854775.808", "-9223372036854775.808 MW");
}

/* Mills and kW are written so in messages. */
static int is_in_message(int64_t number, const char *dollars, const char *megawatts)
{
    char text[COMMAS_LEN];
    int right;

    dollars_in_message(number, text);
    right = same("mills in a message", dollars, text);
    megawatts_in_message(number, text);
    return right & same("kW in a message", megawatts, text);
}

static int messages_are_right(void)
{
    return is_in_message(0, "$0", "0 MW") & is_in_message(-1, "-$0.001", "-0.001 MW") &
           is_in_message(500, "$0.50", "0.5 MW") & is_in_message(1000, "$1", "1 MW") &
           is_in_message(31125000, "$31,125", "31,125 MW") &
           is_in_message(-1000010, "-$1,000.01", "-1,000.01 MW") &
           is_in_message(INT64_MAX, "$9,223,372,036,854,775.807",
                         "9,223,372,036,854,775.807 MW") &
           is_in_message(INT64_MIN, "-$9,223,372,036,854,775.808",
                         "-9,223,372,036,854,775.808 MW");
}

/* A number written to a list is read from it, and has these bytes. */
static int is_listed(int64_t number, const char *bytes)
{
    struct list list = {0};

    add_number(&list, 0);
    add_number(&list, number);
    if (count_of(&list) == 2 && wz_get(list.bytes, 1) == number &&
        memcmp(list.bytes + WZ_NUMBER, bytes, WZ_NUMBER) == 0)
        return 1;
    printf("%" PRId64 " isn't listed right\n", number);
    return 0;
}

static int lists_are_right(void)
{
    return is_listed(0, "\0\0\0\0\0\0\0\0") & is_listed(1, "\1\0\0\0\0\0\0\0") &
           is_listed(-1, "\377\377\377\377\377\377\377\377") &
           is_listed(INT64_MAX, "\377\377\377\377\377\377\377\177") &
           is_listed(INT64_MIN, "\0\0\0\0\0\0\0\200");
}

/* A list has room for one number more than the longest, and takes any more. */
static int room_is_right(void)
{
    struct list list = {0}, twice = {0};
    int64_t i;

    for (i = 0; i < 1024; i++)
        add_number(&list, i);
    add_list(&twice, &list);
    add_list(&twice, &list);
    if (count_of(&list) == 1024 && count_of(&twice) == 1025 && wz_get(twice.bytes, 1024) == 0)
        return 1;
    printf("a list of %zu, one of %zu\n", count_of(&list), count_of(&twice));
    return 0;
}

int main(void)
{
    return !(dollars_are_right() & commas_are_right() & units_are_right() &
             messages_are_right() & lists_are_right() & room_is_right());
}
