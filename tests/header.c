/*
 * Tests what the header itself has: numbers in lists, the version's two forms
 * and which archives it runs with, a file's length, the examples of writing and
 * of counts, the words of parts and fields, and those of numbers that are no
 * refusal. Prints document 01's table of refusals from wz_sentence, for
 * comparison, where all else is right; to refusal 9 ticket 2 of document 02 adds
 * the edition.
 */
#include "wunzelihle.h"

#include <inttypes.h>
#include <stdio.h>
#include <string.h>

/* A number put into a list is got from it, and has these bytes. */
static int is_listed(int64_t number, const char *bytes)
{
    uint8_t list[3 * WZ_NUMBER];
    int kept;

    memset(list, 0x5a, sizeof list);
    wz_put(list, 1, number);
    kept = list[WZ_NUMBER - 1] == 0x5a && list[2 * WZ_NUMBER] == 0x5a;
    if (kept && wz_get(list, 1) == number && memcmp(list + WZ_NUMBER, bytes, WZ_NUMBER) == 0)
        return 1;
    printf("%" PRId64 " isn't listed right\n", number);
    return 0;
}

static int numbers_are_right(void)
{
    return is_listed(0, "\0\0\0\0\0\0\0\0") & is_listed(1, "\1\0\0\0\0\0\0\0") &
           is_listed(-1, "\377\377\377\377\377\377\377\377") &
           is_listed(-4, "\374\377\377\377\377\377\377\377") &
           is_listed(INT64_C(0x0102030405060708), "\10\7\6\5\4\3\2\1") &
           is_listed(INT64_MAX, "\377\377\377\377\377\377\377\177") &
           is_listed(INT64_MIN, "\0\0\0\0\0\0\0\200") &
           is_listed(INT64_MIN + 1, "\1\0\0\0\0\0\0\200");
}

/* An array there and back, with nothing beside it touched. */
static int arrays_are_right(void)
{
    static const int64_t numbers[3] = {-4, 0, INT64_MAX};
    int64_t back[4] = {7, 7, 7, 7};
    uint8_t list[4 * WZ_NUMBER];

    memset(list, 0x5a, sizeof list);
    wz_put_all(list, numbers, 3);
    wz_get_all(list, back, 3);
    if (memcmp(numbers, back, sizeof numbers) == 0 && back[3] == 7 && list[3 * WZ_NUMBER] == 0x5a &&
        wz_get(list, 2) == INT64_MAX)
        return 1;
    puts("an array isn't listed right");
    return 0;
}

static int is_same(const char *what, const char *expected, const char *text)
{
    if (strcmp(expected, text) == 0)
        return 1;
    printf("%s: '%s', '%s' is expected\n", what, text, expected);
    return 0;
}

static int version_is_right(void)
{
    char text[40];

    sprintf(text, "%u.%u.%u", WZ_VERSION / 10000, WZ_VERSION / 100 % 100, WZ_VERSION % 100);
    if (wz_version() != WZ_VERSION)
        printf("the archive is of version %" PRIu32 "\n", wz_version());
    return is_same("version", text, WZ_VERSION_TEXT) & (wz_version() == WZ_VERSION);
}

/* Archives of the same major version that aren't older. */
static int runs_with_is_right(void)
{
    if (WZ_RUNS_WITH(WZ_VERSION) && WZ_RUNS_WITH(WZ_VERSION + 1) && WZ_RUNS_WITH(WZ_VERSION + 100) &&
        !WZ_RUNS_WITH(WZ_VERSION - 1) && !WZ_RUNS_WITH(WZ_VERSION + 10000))
        return 1;
    puts("WZ_RUNS_WITH isn't right");
    return 0;
}

/* The engine writes a file into so many bytes, and not into one less. */
static int is_written(int64_t locations, int64_t rows, int64_t transactions, int64_t edition)
{
    static uint8_t prices[WZ_NUMBER * WZ_LOCATION_PRICES * WZ_MOST_LOCATIONS];
    static uint8_t row_list[WZ_NUMBER * WZ_ROW_NUMBERS * WZ_MOST_ROWS];
    static uint8_t transaction_list[WZ_NUMBER * WZ_MOST_TRANSACTION_NUMBERS * WZ_MOST_TRANSACTIONS];
    static uint8_t file[WZ_LONGEST_FILE];
    size_t bytes = WZ_FILE_BYTES(locations, rows, transactions, edition);
    size_t prices_len = WZ_NUMBER * WZ_LOCATION_PRICES * (size_t)locations;
    size_t row_len = WZ_NUMBER * WZ_ROW_NUMBERS * (size_t)rows;
    size_t transaction_len =
        WZ_NUMBER * (size_t)WZ_TRANSACTION_NUMBERS(edition) * (size_t)transactions;

    if (wz_write_file(1, locations, rows, transactions, edition, prices, prices_len, row_list,
                      row_len, transaction_list, transaction_len, file, bytes) == WZ_OK &&
        wz_write_file(1, locations, rows, transactions, edition, prices, prices_len, row_list,
                      row_len, transaction_list, transaction_len, file, bytes - 1) == WZ_LENGTH)
        return 1;
    printf("a file of edition %" PRId64 " hasn't %zu bytes\n", edition, bytes);
    return 0;
}

static int lengths_are_right(void)
{
    int64_t edition;
    int right = 1;

    for (edition = WZ_EDITION_PATH_ONLY; edition <= WZ_LAST_EDITION; edition++)
        right &= is_written(1, 0, 0, edition) & is_written(2, 3, 1, edition) &
                 is_written(WZ_MOST_LOCATIONS, WZ_MOST_ROWS, WZ_MOST_TRANSACTIONS, edition) &
                 (WZ_FILE_BYTES(1, 0, 0, edition) == WZ_SHORTEST_FILE);
    return right & (WZ_FILE_BYTES(WZ_MOST_LOCATIONS, WZ_MOST_ROWS, WZ_MOST_TRANSACTIONS,
                                  WZ_LAST_EDITION) == WZ_LONGEST_FILE);
}

/* The file has these bytes behind a header of five and prices of one location that are 0. */
static int has_bytes(const uint8_t *file, const char *header, const char *rest, size_t rest_len)
{
    static const uint8_t prices[78];

    return memcmp(file, header, 5) == 0 && memcmp(file + 5, prices, sizeof prices) == 0 &&
           memcmp(file + WZ_SHORTEST_FILE, rest, rest_len) == 0;
}

/* wz_write_file's two examples. */
static int writing_is_right(void)
{
    static const int64_t row[] = {1, 0, 11, 1, 0, 600}, sale[] = {0, 0, 1, 0, 0, 0, 600};
    static const uint8_t prices[WZ_NUMBER * WZ_LOCATION_PRICES];
    uint8_t row_list[WZ_NUMBER * WZ_ROW_NUMBERS], sale_list[WZ_NUMBER * 7], file[96];

    wz_put_all(row_list, row, WZ_ROW_NUMBERS);
    wz_put_all(sale_list, sale, 7);
    if (wz_write_file(2, 1, 1, 0, WZ_EDITION_PATH_ONLY, prices, sizeof prices, row_list,
                      sizeof row_list, NULL, 0, file, 89) == WZ_OK &&
        has_bytes(file, "\x04\x00\x01\x00\x00", "\x8b\x04\x00\x00\x12\xc0", 6) &&
        wz_write_file(2, 1, 1, 1, WZ_EDITION_WITH_SELLER, prices, sizeof prices, row_list,
                      sizeof row_list, sale_list, sizeof sale_list, file, 96) == WZ_OK &&
        has_bytes(file, "\x04\x00\x01\x00\x41",
                  "\x8b\x04\x00\x00\x12\xc0\x00\x20\x00\x00\x00\x09\x60", 13))
        return 1;
    puts("an example of wz_write_file isn't right");
    return 0;
}

/* The places of a sale's numbers: each stands where the file has it. */
static int places_are_right(void)
{
    static const uint8_t prices[5 * WZ_NUMBER * WZ_LOCATION_PRICES];
    uint8_t sale[WZ_NUMBER * 7], file[5 + 5 * 78 + 7];

    wz_put(sale, WZ_SALE_MARKET, WZ_REAL_TIME);
    wz_put(sale, WZ_SALE_INTERVAL, 11);
    wz_put(sale, WZ_SALE_PARTICIPANT, 1);
    wz_put(sale, WZ_SALE_SELLER, 2);
    wz_put(sale, WZ_SALE_SOURCE, 3);
    wz_put(sale, WZ_SALE_SINK, 4);
    wz_put(sale, WZ_SALE_KW, 5);
    if (wz_write_file(3, 5, 0, 1, 1, prices, sizeof prices, NULL, 0, sale, sizeof sale, file,
                      sizeof file) == WZ_OK &&
        memcmp(file + 5 + 5 * 78, "\xd8\x21\x06\x20\x00\x00\x14", 7) == 0)
        return 1;
    puts("the places of a sale aren't right");
    return 0;
}

/* wz_counts's example: the exercise of document 01. */
static int counts_are_right(void)
{
    static const int64_t expected[WZ_COUNT_NUMBERS] = {2, 2, 3, 0, 0};
    uint8_t file[WZ_FILE_BYTES(2, 3, 0, WZ_EDITION_PATH_ONLY)] = {0x04, 0x10, 0x03, 0x00, 0x00};
    uint8_t list[WZ_NUMBER * WZ_COUNT_NUMBERS];
    int64_t counts[WZ_COUNT_NUMBERS] = {0};

    if (wz_counts(file, sizeof file, list, sizeof list) == WZ_OK)
        wz_get_all(list, counts, WZ_COUNT_NUMBERS);
    if (memcmp(counts, expected, sizeof counts) == 0 &&
        wz_get(list, WZ_HEADER_EDITION) == WZ_EDITION_PATH_ONLY)
        return 1;
    puts("the example of wz_counts isn't right");
    return 0;
}

/* The words of every part and field, and "" for all others. */
static int words_are_right(void)
{
    static const struct {
        const char *part, *fields;
    } words[] = {
        {"", "///////"},
        {"file", "length in bytes///////"},
        {"header", "participants/locations/rows/transactions/edition///"},
        {"price", "mills per MWh///////"},
        {"row", "market/kind/interval/participant/location/kW/spare bits/"},
        {"transaction", "market/interval/participant/source/sink/kW/seller/spare bits"},
        {"surplus", "cents///////"},
        {"share", "kW///////"},
        {"list", "length of prices in bytes/length of rows in bytes/"
                 "length of transactions in bytes/////"},
        {"", "///////"},
    };
    char fields[200];
    int64_t part, field;
    int right = 1;

    for (part = -1; part <= WZ_PART_LIST + 1; part++) {
        size_t i = part < 0 ? 0 : (size_t)part;

        fields[0] = '\0';
        for (field = 0; field < 8; field++)
            strcat(strcat(fields, field > 0 ? "/" : ""), wz_field_word(part, field));
        right &= is_same("part", words[i].part, wz_part_word(part)) &
                 is_same("fields", words[i].fields, fields) &
                 is_same("field -1", "", wz_field_word(part, -1)) &
                 is_same("field 8", "", wz_field_word(part, 8));
    }
    return right & is_same("kW of a row", "kW", wz_field_word(WZ_PART_ROW, WZ_ROW_KW)) &
           is_same("spare bits of a row", "spare bits", wz_field_word(WZ_PART_ROW, WZ_ROW_SPARE)) &
           is_same("kW of a transaction", "kW",
                   wz_field_word(WZ_PART_TRANSACTION, WZ_TRANSACTION_KW)) &
           is_same("seller of a transaction", "seller",
                   wz_field_word(WZ_PART_TRANSACTION, WZ_TRANSACTION_SELLER)) &
           is_same("spare bits of a transaction", "spare bits",
                   wz_field_word(WZ_PART_TRANSACTION, WZ_TRANSACTION_SPARE)) &
           is_same("edition of a header", "edition",
                   wz_field_word(WZ_PART_HEADER, WZ_HEADER_EDITION));
}

/* Numbers that are no refusal have words, too, and no refusal's. */
static int others_are_right(void)
{
    return is_same("done", "done", wz_sentence(WZ_OK)) &
           is_same("after the last", "unknown refusal", wz_sentence(WZ_SURPLUS + 1)) &
           is_same("the largest", "unknown refusal", wz_sentence(UINT32_MAX));
}

static void print_table(void)
{
    uint32_t refusal;

    puts("| No. | Given when |\n|---|---|");
    for (refusal = WZ_LENGTH; refusal <= WZ_SURPLUS; refusal++)
        printf("| %" PRIu32 " | %s |\n", refusal, wz_sentence(refusal));
}

int main(void)
{
    int right = numbers_are_right() & arrays_are_right() & version_is_right() &
                runs_with_is_right() & lengths_are_right() & writing_is_right() &
                places_are_right() & counts_are_right() & words_are_right() & others_are_right();

    if (right)
        print_table();
    return !right;
}
