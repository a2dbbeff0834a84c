#include "exercise.h"

#include <string.h>

#define HEADER 5 /* bytes of a file's header */

/* Arguments of the calls: an hour's counts and edition, and its lists with their lengths. */
#define LISTS_OF(exercise)                                                                        \
    (exercise)->prices, prices_len(exercise), (exercise)->rows.numbers,                           \
        entries_len(&(exercise)->rows), (exercise)->transactions.numbers,                         \
        entries_len(&(exercise)->transactions)
#define COUNTS_OF(exercise)                                                                       \
    (exercise)->participants, (exercise)->locations, (int64_t)(exercise)->rows.count,             \
        (int64_t)(exercise)->transactions.count, (exercise)->edition

/* Where the numbers of a transaction with a seller stand in a list. */
static const size_t sale_place[] = {
    [TRANSACTION_MARKET] = WZ_SALE_MARKET,           [TRANSACTION_INTERVAL] = WZ_SALE_INTERVAL,
    [TRANSACTION_PARTICIPANT] = WZ_SALE_PARTICIPANT, [TRANSACTION_SELLER] = WZ_SALE_SELLER,
    [TRANSACTION_SOURCE] = WZ_SALE_SOURCE,           [TRANSACTION_SINK] = WZ_SALE_SINK,
    [TRANSACTION_KW] = WZ_SALE_KW};

int64_t entry_number(const struct entries *entries, size_t entry, size_t place)
{
    return wz_get(entries->numbers, entries->width * entry + place);
}

int is_edition(int64_t edition)
{
    return edition >= 0 && edition <= WZ_LAST_EDITION;
}

int have_seller(const struct entries *transactions)
{
    return transactions->width == WZ_TRANSACTION_NUMBERS(WZ_EDITION_WITH_SELLER);
}

size_t transaction_place(const struct entries *transactions, enum transaction_number number)
{
    return have_seller(transactions) ? sale_place[number] : (size_t)number;
}

int64_t transaction_number(const struct entries *transactions, size_t transaction,
                           enum transaction_number number)
{
    return entry_number(transactions, transaction, transaction_place(transactions, number));
}

int has_room_for_prices(const struct exercise *exercise)
{
    return exercise->locations >= 1 && exercise->locations <= WZ_MOST_LOCATIONS;
}

size_t stretch_of(enum price_list list, enum market market, size_t interval)
{
    return (size_t)list * (1 + WZ_INTERVALS) + (market == DAY_AHEAD ? 0 : 1 + interval);
}

enum price_list list_of(size_t stretch)
{
    return (enum price_list)(stretch / (1 + WZ_INTERVALS));
}

enum market market_of(size_t stretch)
{
    return stretch % (1 + WZ_INTERVALS) == 0 ? DAY_AHEAD : REAL_TIME;
}

size_t interval_of(size_t stretch)
{
    return market_of(stretch) == DAY_AHEAD ? 0 : stretch % (1 + WZ_INTERVALS) - 1;
}

static size_t price_number(const struct exercise *exercise, size_t stretch, size_t location)
{
    return stretch * (size_t)exercise->locations + location;
}

int64_t price_at(const struct exercise *exercise, size_t stretch, size_t location)
{
    return wz_get(exercise->prices, price_number(exercise, stretch, location));
}

void set_price(struct exercise *exercise, size_t stretch, size_t location, int64_t mills)
{
    wz_put(exercise->prices, price_number(exercise, stretch, location), mills);
}

size_t price_place(size_t number)
{
    return HEADER + PRICE_BYTES * number;
}

/* The lengths of the lists in bytes. */
static size_t prices_len(const struct exercise *exercise)
{
    return has_room_for_prices(exercise) ? WZ_NUMBER * WZ_LOCATION_PRICES * (size_t)exercise->locations : 0;
}

static size_t entries_len(const struct entries *entries)
{
    return WZ_NUMBER * entries->width * entries->count;
}

void counts_in_header(const uint8_t *file, size_t length, uint8_t counts[WZ_NUMBER * WZ_COUNT_NUMBERS])
{
    uint8_t whole[WZ_LONGEST_FILE] = {0}; /* a file of that header and that length */

    memcpy(whole, file, HEADER);
    wz_counts(whole, length, counts, WZ_NUMBER * WZ_COUNT_NUMBERS);
}

uint32_t write_exercise(const struct exercise *exercise, uint8_t file[WZ_LONGEST_FILE],
                        size_t *len)
{
    uint32_t refusal =
        wz_write_file(COUNTS_OF(exercise), LISTS_OF(exercise), file, WZ_LONGEST_FILE);

    if (refusal == WZ_OK)
        *len = WZ_FILE_BYTES(exercise->locations, exercise->rows.count,
                             exercise->transactions.count, exercise->edition);
    return refusal;
}

uint32_t read_exercise(const uint8_t *file, size_t len, struct exercise *exercise)
{
    uint8_t counts[WZ_NUMBER * WZ_COUNT_NUMBERS];
    uint32_t refusal = wz_counts(file, len, counts, sizeof counts);

    if (refusal != WZ_OK)
        return refusal;
    exercise->participants = wz_get(counts, WZ_HEADER_PARTICIPANTS);
    exercise->locations = wz_get(counts, WZ_HEADER_LOCATIONS);
    exercise->edition = wz_get(counts, WZ_HEADER_EDITION);
    exercise->rows.count = (size_t)wz_get(counts, WZ_HEADER_ROWS);
    exercise->rows.width = WZ_ROW_NUMBERS;
    exercise->transactions.count = (size_t)wz_get(counts, WZ_HEADER_TRANSACTIONS);
    exercise->transactions.width = WZ_TRANSACTION_NUMBERS(exercise->edition);
    return wz_read_file(file, len, LISTS_OF(exercise));
}

void find_list_cause(const struct exercise *exercise, uint8_t cause[WZ_NUMBER * WZ_CAUSE_NUMBERS])
{
    wz_find_list_cause(COUNTS_OF(exercise), LISTS_OF(exercise), cause, WZ_NUMBER * WZ_CAUSE_NUMBERS);
}
