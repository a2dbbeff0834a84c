/* wz_find_list_cause in C, right but for its MISTAKE. */
#include "tested.h"

struct given {
    int64_t count[4], edition;
    const uint8_t *list[3]; /* prices, rows, transactions */
    int64_t len[3];
};

static int64_t given_at(const uint8_t *list, size_t i)
{
    int64_t number = wz_get(list, i);

    return MISTAKE == LOW_HALVES ? (int32_t)number : number;
}

static int test_counts(struct cause *cause, const struct given *given)
{
    static const int64_t least[] = {1, 1, 0, 0};
    static const int64_t most[] = {WZ_MOST_PARTICIPANTS, WZ_MOST_LOCATIONS, WZ_MOST_ROWS,
                                   WZ_MOST_TRANSACTIONS};
    struct place place = {WZ_PART_HEADER, 0, 0};

    for (; place.field < 4; place.field++)
        if (!within(cause, WZ_LENGTH, place, given->count[place.field],
                    MISTAKE == COUNTS_FROM_0 ? 0 : least[place.field], most[place.field]))
            return 0;
    return 1;
}

/* Numbers of a transaction. */
static int64_t numbers_of(int64_t edition)
{
    return edition == 0 ? 6 : 7;
}

static int test_list(struct cause *cause, const struct given *given, size_t list)
{
    const int64_t numbers[] = {WZ_LOCATION_PRICES, WZ_ROW_NUMBERS, numbers_of(given->edition)};
    struct place place = {WZ_PART_LIST, 0, (int64_t)list};
    int64_t right = WZ_NUMBER * numbers[list] * given->count[1 + list];
    int64_t unit = MISTAKE == LENGTHS_IN_NUMBERS ? WZ_NUMBER : 1;

    if (MISTAKE == LENGTHS_CUT && given->len[list] / WZ_NUMBER == right / WZ_NUMBER)
        return 1;
    if (given->len[list] == right)
        return 1;
    tell(cause, WZ_LENGTH, place, given->len[list] / unit, right / unit, right / unit);
    return 0;
}

static int test_prices(struct cause *cause, const struct given *given)
{
    int64_t i;

    for (i = 0; i < WZ_LOCATION_PRICES * given->count[1]; i++)
        if (!price_stands(cause, i, given_at(given->list[0], (size_t)i)))
            return 0;
    return 1;
}

/* Entry i of a list of so many numbers each, by their fields. */
static void take(int64_t *number, const int64_t *field, const uint8_t *list, int64_t numbers,
                 int64_t i)
{
    int64_t k;

    for (k = 0; k < numbers; k++)
        number[field[k]] = given_at(list, (size_t)(numbers * i + k));
    if (MISTAKE == MARKETS_UNTESTED)
        number[0] = number[0] != 0;
}

static int test_rows(struct cause *cause, const struct given *given, const struct counted *counted)
{
    static const int64_t fields[] = {0, 1, 2, 3, 4, 5};
    int64_t number[WZ_ROW_NUMBERS + 1] = {0}, i; /* no spare bits */
    int right = 1;

    for (i = 0; i < given->count[2] && (right || MISTAKE == LAST_REFUSED); i++) {
        take(number, fields, given->list[1], WZ_ROW_NUMBERS, i);
        right &= row_stands(cause, i, number, counted);
    }
    return right;
}

static int test_transactions(struct cause *cause, const struct given *given,
                             const struct counted *counted)
{
    int64_t number[8] = {0}, i; /* no spare bits */

    for (i = 0; i < given->count[3]; i++) {
        take(number, fields_of(given->edition), given->list[2], numbers_of(given->edition), i);
        if (!transaction_stands(cause, i, number, given->edition, counted))
            return 0;
    }
    return 1;
}

static void find(struct cause *cause, const struct given *given)
{
    struct counted counted = {given->count[0], given->count[1]};

    if ((MISTAKE != EDITION_LATE && !edition_stands(cause, given->edition)) ||
        !test_counts(cause, given) || !edition_stands(cause, given->edition) ||
        !test_list(cause, given, 0) ||
        (MISTAKE == LISTS_LATE && !test_prices(cause, given)) || !test_list(cause, given, 1) ||
        !test_list(cause, given, 2) || !test_prices(cause, given))
        return;
    if (MISTAKE == TRANSACTIONS_FIRST && !test_transactions(cause, given, &counted))
        return;
    if (test_rows(cause, given, &counted) && MISTAKE != TRANSACTIONS_UNTESTED)
        test_transactions(cause, given, &counted);
}

uint32_t wz_find_list_cause(int64_t participants, int64_t locations, int64_t rows,
                            int64_t transactions, int64_t edition,
                            const uint8_t *prices, size_t prices_len,
                            const uint8_t *row_list, size_t row_list_len,
                            const uint8_t *transaction_list, size_t transaction_list_len,
                            uint8_t *cause, size_t cause_len)
{
    struct given given = {{participants, locations, rows, transactions},
                          edition,
                          {prices, row_list, transaction_list},
                          {(int64_t)prices_len, (int64_t)row_list_len,
                           (int64_t)transaction_list_len}};
    struct cause found = {{0}};
    uint32_t answer = test_cause_len(cause_len);

    if (answer != WZ_OK || MISTAKE == WRITES_NOTHING)
        return answer;
    find(&found, &given);
    if (MISTAKE == ANSWERS_THE_REFUSAL)
        answer = (uint32_t)found.number[WZ_CAUSE_REFUSAL];
    write_cause(cause, &found);
    return answer;
}
