/* wz_read_file in C, right but for its MISTAKE. */
#include "exercise.h"

/* The list has so many numbers. */
static int has_numbers(size_t len, size_t count)
{
    if (MISTAKE == LENGTHS_CUT)
        return len / 8 == count;
    return len == 8 * count || (MISTAKE == LISTS_LONGER && len > 8 * count);
}

static uint32_t test_prices_read(const uint8_t *file, const struct header *header)
{
    size_t i;

    for (i = 0; i < prices_of(header); i++)
        if (price_at(file, i) < -MOST_PRICE || price_at(file, i) > MOST_PRICE)
            return WZ_RANGE;
    return WZ_OK;
}

static void list_prices(uint8_t *list, const uint8_t *file, const struct header *header)
{
    size_t count = prices_of(header), i;

    for (i = 0; i < count; i++) {
        size_t from = MISTAKE == LOSS_FIRST ? (i + count / 2) % count : i;
        int64_t price = price_at(file, from);

        wz_put(list, i, MISTAKE == PRICES_UNSIGNED ? price & 0xffffff : price);
    }
}

static void list_row(uint8_t *six, const struct row *row)
{
    size_t exchanged = MISTAKE == FIELDS_EXCHANGED;

    wz_put(six, 0, row->market);
    wz_put(six, 1 + exchanged, row->kind);
    wz_put(six, 2 - exchanged, row->interval);
    wz_put(six, 3, row->participant);
    wz_put(six, 4, row->location);
    wz_put(six, 5, row->kw);
}

/* Its numbers from the source on stand behind the seller, where it has one. */
static void list_transaction(uint8_t *list, const struct row *row, int64_t edition)
{
    size_t behind = edition == 0 ? 3 : 4;

    wz_put(list, 0, row->market);
    wz_put(list, 1, row->interval);
    wz_put(list, 2, row->participant);
    wz_put(list, 3, row->seller);
    wz_put(list, behind, row->location);
    if (MISTAKE == SELLER_AND_SOURCE_EXCHANGED && edition != 0) {
        wz_put(list, 3, row->location);
        wz_put(list, 4, row->seller);
    }
    wz_put(list, behind + 1, row->sink);
    wz_put(list, behind + 2, row->kw);
}

/* There is real-time load or an export. */
static int has_shares(const uint8_t *file, const struct header *header)
{
    struct row row;
    size_t i;

    for (i = 0; i < header->rows; i++) {
        read_row(&row, rows_of(file, header) + 6 * i, 64, 64);
        if (row.market == 1 && row.kind % 2 == 0)
            return 1;
    }
    return 0;
}

uint32_t wz_read_file(const uint8_t *file, size_t file_len,
                      uint8_t *prices, size_t prices_len,
                      uint8_t *row_list, size_t row_list_len,
                      uint8_t *transaction_list, size_t transaction_list_len)
{
    struct header header = {0};
    uint32_t answer = read_header(&header, file, file_len);
    struct row row;
    size_t i;
    int lists;

    if (MISTAKE == REFUSES_ALL)
        return WZ_FILE;
    lists = has_numbers(prices_len, prices_of(&header)) &&
            has_numbers(row_list_len, 6 * header.rows) &&
            has_numbers(transaction_list_len,
                        transaction_bytes(header.edition) * header.transactions);
    /* A header that was read has a location. */
    if (MISTAKE == LISTS_FIRST && header.locations > 0 && !lists)
        return WZ_LENGTH;
    if (answer != WZ_OK)
        return answer;
    if (MISTAKE == LISTS_LATE && test_prices_read(file, &header) != WZ_OK)
        return WZ_RANGE;
    if (!lists)
        return WZ_LENGTH;
    if (MISTAKE == WRITTEN_EARLY && test_prices_read(file, &header) == WZ_OK)
        list_prices(prices, file, &header);
    answer = test_rest(file, &header);
    if (answer != WZ_OK || MISTAKE == WRITES_NOTHING)
        return answer;
    if (MISTAKE == SHARES_WANTED && !has_shares(file, &header))
        return WZ_NO_SHARES;

    list_prices(prices, file, &header);
    for (i = 0; i < header.rows; i++) {
        read_row(&row, rows_of(file, &header) + 6 * i, 64, 64);
        list_row(row_list + 48 * i, &row);
    }
    for (i = 0; i < header.transactions; i++) {
        row = transaction_of(file, &header, i);
        list_transaction(transaction_list + 8 * transaction_bytes(header.edition) * i, &row,
                         header.edition);
    }
    return WZ_OK;
}
