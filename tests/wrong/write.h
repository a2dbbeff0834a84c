/* wz_write_file in C, right but for its MISTAKE. */
#include "exercise.h"

#include <string.h>

/* What the call is given but for the lengths of its lists. */
struct given_hour {
    int64_t participants, locations, rows, transactions, edition;
    const uint8_t *prices, *row_list, *transaction_list;
    uint8_t *file;
};

static int64_t given_at(const uint8_t *list, size_t i)
{
    int64_t number = wz_get(list, i);

    return MISTAKE == LOW_HALVES ? (int32_t)number : number;
}

/* The number is one of so many, counted from 0. */
static int among(int64_t number, int64_t count)
{
    return number < count && (number >= 0 || MISTAKE == BELOW_ZERO_UNTESTED);
}

static struct row given_row(const struct given_hour *hour, size_t i)
{
    const uint8_t *six = hour->row_list + 48 * i;
    size_t exchanged = MISTAKE == FIELDS_EXCHANGED;
    struct row row = {0};

    row.market = given_at(six, 0);
    row.kind = given_at(six, 1);
    row.interval = given_at(six, 2);
    row.participant = row.seller = given_at(six, 3 + exchanged);
    row.location = row.sink = given_at(six, 4 - exchanged);
    row.kw = given_at(six, 5);
    return row;
}

static struct row given_transaction(const struct given_hour *hour, size_t i)
{
    const uint8_t *list = hour->transaction_list + 8 * transaction_bytes(hour->edition) * i;
    size_t behind = hour->edition == 0 ? 3 : 4; /* the seller, where there is one */
    struct row row = {0};

    row.market = given_at(list, 0);
    row.interval = given_at(list, 1);
    row.participant = given_at(list, 2);
    row.seller = hour->edition == 0 ? row.participant : given_at(list, 3);
    row.location = given_at(list, behind);
    row.sink = given_at(list, behind + 1);
    row.kw = given_at(list, behind + 2);
    return row;
}

static uint32_t test_given(struct row row, const struct given_hour *hour)
{
    if (!among(row.market, 2) && MISTAKE != MARKETS_UNTESTED)
        return WZ_KIND;
    if (!among(row.kind, row.market ? 4 : 6) || !among(row.interval, row.market ? INTERVALS : 1))
        return WZ_KIND;
    if (MISTAKE == RANGE_BEFORE_IDENTITY && !among(row.kw, MOST_KW + 1))
        return WZ_RANGE;
    if (!among(row.participant, hour->participants) || !among(row.location, hour->locations) ||
        !among(row.sink, hour->locations))
        return WZ_IDENTITY;
    if (MISTAKE != SELLER_UNTESTED && !among(row.seller, hour->participants))
        return WZ_IDENTITY;
    return among(row.kw, MOST_KW + 1) ? WZ_OK : WZ_RANGE;
}

/* A number's lowest bytes, the highest of them first. */
static void put_high(uint8_t *bytes, size_t count, uint64_t number)
{
    for (; count > 0; number >>= 8)
        bytes[--count] = (uint8_t)number;
}

static void put_header(const struct given_hour *hour)
{
    int64_t less = MISTAKE == COUNTS_AS_THEY_ARE ? 0 : 1;

    put_high(hour->file, 5,
             (uint64_t)(hour->participants - less) << 34 |
                 (uint64_t)(hour->locations - 1) << 28 | (uint64_t)hour->rows << 16 |
                 (uint64_t)hour->transactions << 6 | (uint64_t)hour->edition);
}

static size_t count_of_prices(const struct given_hour *hour)
{
    return 2 * (1 + INTERVALS) * (size_t)hour->locations;
}

static void put_prices(const struct given_hour *hour)
{
    size_t count = count_of_prices(hour), i;

    for (i = 0; i < count; i++) {
        size_t from = MISTAKE == LOSS_FIRST ? (i + count / 2) % count : i;
        int64_t price = given_at(hour->prices, from);

        if (MISTAKE == PRICES_BY_SIZE && price < 0)
            price = -price;
        put_high(hour->file + 5 + 3 * i, 3, (uint64_t)price);
    }
}

/* Where a row and where a transaction stands in the file. */
static size_t place_of_row(const struct given_hour *hour, size_t i)
{
    return 5 + 3 * count_of_prices(hour) + 6 * i;
}

static size_t place_of_transaction(const struct given_hour *hour, size_t i)
{
    return place_of_row(hour, (size_t)hour->rows) + transaction_bytes(hour->edition) * i;
}

static void put_row(const struct given_hour *hour, size_t i)
{
    struct row row = given_row(hour, i);
    uint64_t market = (uint64_t)row.market;

    if (MISTAKE == MARKETS_UNTESTED)
        market = market != 0;
    put_high(hour->file + place_of_row(hour, i), 6,
             market << 47 | (uint64_t)row.kind << 44 | (uint64_t)row.interval << 40 |
                 (uint64_t)row.participant << 34 | (uint64_t)row.location << 28 |
                 (uint64_t)row.kw << (MISTAKE == KW_LEFT ? 4 : 3) |
                 (MISTAKE == SPARE_SET ? 7 : 0));
}

static void put_transaction(const struct given_hour *hour, size_t i)
{
    struct row row = given_transaction(hour, i);
    uint64_t start = (uint64_t)row.market << 10 | (uint64_t)row.interval << 6 |
                     (uint64_t)row.participant;
    uint64_t end = (uint64_t)row.sink << 25 | (uint64_t)row.kw;
    uint8_t *place = hour->file + place_of_transaction(hour, i);

    if (hour->edition == 0)
        put_high(place, 6, start << 37 | (uint64_t)row.location << 31 | end);
    else if (MISTAKE == SELLER_AND_SOURCE_EXCHANGED)
        put_high(place, 7,
                 start << 45 | (uint64_t)row.location << 39 | (uint64_t)row.seller << 33 | end << 2);
    else
        put_high(place, 7,
                 start << 45 | (uint64_t)row.seller << 39 | (uint64_t)row.location << 33 | end << 2);
}

static uint32_t test_prices(const struct given_hour *hour)
{
    size_t i;

    for (i = 0; i < count_of_prices(hour); i++)
        if (given_at(hour->prices, i) < -MOST_PRICE || given_at(hour->prices, i) > MOST_PRICE)
            return WZ_RANGE;
    return WZ_OK;
}

static uint32_t test_rows(const struct given_hour *hour)
{
    uint32_t answer = WZ_OK;
    int64_t i;

    for (i = 0; i < hour->rows && answer == WZ_OK; i++)
        answer = test_given(given_row(hour, (size_t)i), hour);
    return answer;
}

static uint32_t test_transactions(const struct given_hour *hour)
{
    uint32_t answer = WZ_OK;
    int64_t i;

    for (i = 0; i < hour->transactions && answer == WZ_OK; i++)
        answer = test_given(given_transaction(hour, (size_t)i), hour);
    return answer;
}

static void put_rows(const struct given_hour *hour)
{
    size_t i;

    for (i = 0; i < (size_t)hour->rows; i++)
        put_row(hour, i);
    for (i = 0; i < (size_t)hour->transactions; i++)
        put_transaction(hour, i);
}

static int is_long(size_t len, size_t right)
{
    return len == right || (MISTAKE == LENGTHS_CUT && len / 8 == right / 8);
}

static uint32_t write_hour(const struct given_hour *hour, size_t prices_len, size_t row_list_len,
                           size_t transaction_list_len, size_t file_len)
{
    uint32_t answer;
    size_t len;
    int lists;

    if (!is_edition(hour->edition) && MISTAKE != EDITION_LATE)
        return MISTAKE == EDITION_AS_RANGE ? WZ_RANGE : WZ_FILE;
    if (hour->participants < 1 || hour->participants > 64 || hour->locations < 1 ||
        hour->locations > 64)
        return WZ_LENGTH;
    if (hour->rows < 0 || hour->rows > (MISTAKE == ROWS_UNLIMITED ? 4095 : 2048))
        return WZ_LENGTH;
    if (hour->transactions < 0 || hour->transactions > 256)
        return WZ_LENGTH;
    if (!is_edition(hour->edition))
        return WZ_FILE;
    lists = is_long(row_list_len, 48 * (size_t)hour->rows) &&
            is_long(transaction_list_len,
                    8 * transaction_bytes(hour->edition) * (size_t)hour->transactions);
    if (!is_long(prices_len, 8 * count_of_prices(hour)) || (!lists && MISTAKE != LISTS_LATE))
        return WZ_LENGTH;
    len = place_of_transaction(hour, (size_t)hour->transactions);
    if (MISTAKE == BUFFER_FIRST && file_len < len)
        return WZ_LENGTH;

    answer = test_prices(hour);
    if (answer != WZ_OK)
        return answer;
    if (!lists)
        return WZ_LENGTH;
    if (MISTAKE == WRITTEN_EARLY && file_len >= len) {
        put_header(hour);
        put_prices(hour);
    }
    if (MISTAKE == TRANSACTIONS_FIRST && test_transactions(hour) != WZ_OK)
        return test_transactions(hour);
    answer = test_rows(hour);
    if (answer == WZ_OK)
        answer = test_transactions(hour);
    if (answer != WZ_OK)
        return answer;
    if (file_len < len || (MISTAKE == BUFFER_EXACT && file_len > len))
        return WZ_LENGTH;

    if (MISTAKE == WRITES_NOTHING)
        return WZ_OK;
    put_header(hour);
    put_prices(hour);
    put_rows(hour);
    if (MISTAKE == REST_CLEARED)
        memset(hour->file + len, 0, file_len - len);
    return WZ_OK;
}

uint32_t wz_write_file(int64_t participants, int64_t locations, int64_t rows,
                       int64_t transactions, int64_t edition,
                       const uint8_t *prices, size_t prices_len,
                       const uint8_t *row_list, size_t row_list_len,
                       const uint8_t *transaction_list,
                       size_t transaction_list_len,
                       uint8_t *file, size_t file_len)
{
    struct given_hour hour = {participants, locations, rows,     transactions,     edition,
                              prices,       row_list,  transaction_list, file};
    uint32_t answer;

    if (MISTAKE == REFUSES_ALL)
        return WZ_LENGTH;
    answer = write_hour(&hour, prices_len, row_list_len, transaction_list_len, file_len);
    if (MISTAKE == CLEARED_WHEN_REFUSED && answer != WZ_OK && file_len > 0)
        memset(file, 0, file_len);
    return answer;
}
