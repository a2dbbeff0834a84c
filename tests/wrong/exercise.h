/* The exercise file read in C, right but for its MISTAKE. */
#ifndef EXERCISE_H
#define EXERCISE_H

#include "mistake.h"
#include "wunzelihle.h"

#define INTERVALS 12
#define MOST_KW 20000000
#define MOST_PRICE 5000000

struct header {
    size_t participants, locations, rows, transactions;
    int64_t edition;
};

/*
 * A row, or a transaction with its source as the location. Where there is no
 * sink, it is the location; where there is no seller, it is the participant.
 */
struct row {
    int64_t market, kind, interval, participant, seller, location, sink, kw, spare;
};

/* A number of so many bits, `at` bits from the start. */
static inline int64_t bits_of(const uint8_t *bytes, size_t at, size_t count)
{
    size_t last = at + count - 1, i;
    uint64_t word = 0;

    for (i = at / 8; i <= last / 8; i++)
        word = word << 8 | bytes[i];
    return (int64_t)(word >> (7 - last % 8) & (((uint64_t)1 << count) - 1));
}

static inline int64_t price_at(const uint8_t *file, size_t i)
{
    int64_t price = bits_of(file, 40 + 24 * i, 24);

    return price < 1 << 23 ? price : price - (1 << 24);
}

static inline size_t prices_of(const struct header *header)
{
    return 2 * (1 + INTERVALS) * header->locations;
}

static inline const uint8_t *rows_of(const uint8_t *file, const struct header *header)
{
    return file + 5 + 3 * prices_of(header);
}

static inline size_t transaction_bytes(int64_t edition)
{
    return edition == 0 ? 6 : 7;
}

static inline const uint8_t *transaction_at(const uint8_t *file, const struct header *header,
                                            size_t i)
{
    return rows_of(file, header) + 6 * header->rows + transaction_bytes(header->edition) * i;
}

static inline int is_edition(int64_t edition)
{
    return edition == 0 || edition == 1 || (MISTAKE == EDITION_2_TAKEN && edition == 2);
}

static inline uint32_t read_header(struct header *header, const uint8_t *file, size_t file_len)
{
    if (file_len < 5 || (!is_edition(bits_of(file, 34, 6)) && MISTAKE != EDITION_LATE))
        return WZ_FILE;
    header->edition = bits_of(file, 34, 6);
    header->participants = (size_t)bits_of(file, 0, 6) + 1;
    header->locations = (size_t)bits_of(file, 6, 6) + 1;
    header->rows = (size_t)bits_of(file, 12, 12);
    header->transactions = (size_t)bits_of(file, 24, 10);
    if (header->rows > 2048 || header->transactions > 256)
        return WZ_LENGTH;
    if (!is_edition(header->edition) ||
        file_len != 5 + 3 * prices_of(header) + 6 * header->rows +
                        transaction_bytes(header->edition) * header->transactions)
        return WZ_FILE;
    return WZ_OK;
}

/* What a row and a transaction have in common. */
static inline uint32_t test_row(const struct row *row, int64_t participants, int64_t locations)
{
    if (row->interval >= INTERVALS || (row->market == 0 && row->interval != 0))
        return WZ_KIND;
    if (MISTAKE == RANGE_BEFORE_IDENTITY && row->kw > MOST_KW)
        return WZ_RANGE;
    if (row->participant >= participants || row->location >= locations || row->sink >= locations)
        return WZ_IDENTITY;
    if (MISTAKE != SELLER_UNTESTED && row->seller >= participants)
        return WZ_IDENTITY;
    if (row->kw > MOST_KW)
        return WZ_RANGE;
    return row->spare != 0 ? WZ_FILE : WZ_OK;
}

static inline uint32_t read_row(struct row *row, const uint8_t *six, int64_t participants,
                                int64_t locations)
{
    row->market = bits_of(six, 0, 1);
    row->kind = bits_of(six, 1, 3);
    row->interval = bits_of(six, 4, 4);
    row->participant = row->seller = bits_of(six, 8, 6);
    row->location = row->sink = bits_of(six, 14, 6);
    row->kw = bits_of(six, 20, 25);
    row->spare = bits_of(six, 45, 3);
    if (row->kind > 5 || (row->kind > 3 && row->market == 1))
        return WZ_KIND;
    return test_row(row, participants, locations);
}

/* Transaction i as it stands, right or not. */
static inline struct row transaction_of(const uint8_t *file, const struct header *header, size_t i)
{
    const uint8_t *bytes = transaction_at(file, header, i);
    size_t at = header->edition == 0 ? 11 : 17; /* behind the seller */
    struct row row = {0};

    row.market = bits_of(bytes, 0, 1);
    row.interval = bits_of(bytes, 1, 4);
    row.participant = bits_of(bytes, 5, 6);
    row.seller = header->edition == 0 ? row.participant : bits_of(bytes, 11, 6);
    row.location = bits_of(bytes, at, 6);
    row.sink = bits_of(bytes, at + 6, 6);
    row.kw = bits_of(bytes, at + 12, 25);
    if (header->edition != 0 && MISTAKE != SALE_SPARE_UNTESTED)
        row.spare = bits_of(bytes, at + 37, 2);
    return row;
}

/* Tests what follows a header that was read. */
static inline uint32_t test_rest(const uint8_t *file, const struct header *header)
{
    int64_t participants = (int64_t)header->participants, locations = (int64_t)header->locations;
    struct row row;
    uint32_t answer;
    size_t i;

    for (i = 0; i < prices_of(header); i++)
        if (price_at(file, i) < -MOST_PRICE || price_at(file, i) > MOST_PRICE)
            return WZ_RANGE;
    for (i = 0; i < header->rows; i++) {
        answer = read_row(&row, rows_of(file, header) + 6 * i, participants, locations);
        if (answer != WZ_OK)
            return answer;
    }
    for (i = 0; i < header->transactions && MISTAKE != TRANSACTIONS_UNTESTED; i++) {
        row = transaction_of(file, header, i);
        answer = test_row(&row, participants, locations);
        if (answer != WZ_OK)
            return answer;
    }
    return WZ_OK;
}

#endif
