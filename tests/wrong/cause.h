/* wz_find_cause in C, right but for its MISTAKE. */
#include "charges.h"
#include "tested.h"

static int test_header(struct cause *cause, const uint8_t *file, size_t file_len)
{
    struct place rows = {WZ_PART_HEADER, 0, 2}, transactions = {WZ_PART_HEADER, 0, 3},
                 length = {WZ_PART_FILE, 0, 0};
    int64_t len = (int64_t)file_len, edition, right;

    if (file_len < 5) {
        tell(cause, WZ_FILE, length, len, MISTAKE == HEADER_IS_ENOUGH ? 5 : WZ_SHORTEST_FILE,
             WZ_LONGEST_FILE);
        return 0;
    }
    edition = bits_of(file, 34, 6);
    if (MISTAKE == TRANSACTIONS_FIRST && is_edition(edition) &&
        !within(cause, WZ_LENGTH, transactions, bits_of(file, 24, 10), 0, WZ_MOST_TRANSACTIONS))
        return 0;
    if ((MISTAKE != EDITION_LATE && !edition_stands(cause, edition)) ||
        !within(cause, WZ_LENGTH, rows, bits_of(file, 12, 12), 0, WZ_MOST_ROWS) ||
        !within(cause, WZ_LENGTH, transactions, bits_of(file, 24, 10), 0, WZ_MOST_TRANSACTIONS) ||
        !edition_stands(cause, edition))
        return 0;
    right = 5 + 78 * (bits_of(file, 6, 6) + 1) + 6 * bits_of(file, 12, 12) +
            (int64_t)transaction_bytes(edition) * bits_of(file, 24, 10);
    if (MISTAKE == LENGTH_FOR_FOUND && len != right) {
        tell(cause, WZ_FILE, length, right, len, len);
        return 0;
    }
    return within(cause, WZ_FILE, length, len, right, right);
}

static int test_prices(struct cause *cause, const uint8_t *file, const struct header *header)
{
    size_t i;

    for (i = 0; i < prices_of(header); i++) {
        size_t told = MISTAKE == PRICES_BY_LOCATION
                          ? i % header->locations * 2 * (1 + INTERVALS) + i / header->locations
                          : i;
        int64_t price = price_at(file, i);

        if (price_stands(cause, (int64_t)told, price))
            continue;
        if (MISTAKE == PRICES_UNSIGNED)
            cause->number[WZ_CAUSE_FOUND] = price & 0xffffff;
        return 0;
    }
    return 1;
}

/* The numbers of a row or a transaction, by fields of so many bits. */
static void take(int64_t *number, const uint8_t *entry, const int64_t *field, const size_t *bits,
                 size_t fields)
{
    size_t at = 0, i;

    for (i = 0; i < fields; at += bits[i++])
        number[field[i]] = bits_of(entry, at, bits[i]);
}

static int test_rows(struct cause *cause, const uint8_t *file, const struct header *header,
                     const struct counted *counted)
{
    static const int64_t fields[] = {0, 1, 2, 3, 4, 5, 6};
    static const size_t bits[] = {1, 3, 4, 6, 6, 25, 3};
    int64_t number[7];
    int right = 1;
    size_t i;

    for (i = 0; i < header->rows && (right || MISTAKE == LAST_REFUSED); i++) {
        take(number, rows_of(file, header) + 6 * i, fields, bits, 7);
        right &= row_stands(cause, (int64_t)i, number, counted);
    }
    return right;
}

static int test_transactions(struct cause *cause, const uint8_t *file, const struct header *header,
                             const struct counted *counted)
{
    static const size_t path[] = {1, 4, 6, 6, 6, 25}, sale[] = {1, 4, 6, 6, 6, 6, 25, 2};
    const size_t *bits = header->edition == 0 ? path : sale;
    size_t first = MISTAKE == COUNTED_BEHIND_ROWS ? header->rows : 0, i;
    int64_t number[8] = {0};

    for (i = 0; i < header->transactions; i++) {
        take(number, transaction_at(file, header, i), fields_of(header->edition), bits,
             header->edition == 0 ? 6 : 8);
        if (!transaction_stands(cause, (int64_t)(first + i), number, header->edition, counted))
            return 0;
    }
    return 1;
}

static int test_shares(struct cause *cause, const int64_t *share, size_t participants)
{
    struct place place = {WZ_PART_SHARE, 0, 0};
    int right = 1;

    for (; place.number < (int64_t)participants; place.number++)
        if (!within(cause, WZ_SURPLUS, place, share[place.number], 0, WZ_MOST_SHARE)) {
            right = 0;
            if (MISTAKE == SHARES_UNNAMED)
                cause->number[WZ_CAUSE_WHICH] = 0;
            if (MISTAKE != LAST_SHARE)
                break;
        }
    return right;
}

static int test_surplus(struct cause *cause, const uint8_t *file, const struct header *header)
{
    static struct account account;
    struct place place = {WZ_PART_SURPLUS, 0, 0};
    int64_t share[WZ_MOST_PARTICIPANTS], shares = 0, surplus = 0;
    int64_t nothing = MISTAKE == NO_SHARES_AS_RANGE ? WZ_MOST_AMOUNT : 0;
    size_t i;

    for (i = 0; i < header->participants; i++) {
        open_account(&account, file, header, (int64_t)i);
        surplus += charge_of(&account, file, header, prices_of(header) / 2, (int64_t)i);
        shares += share[i] = account.share;
    }
    if (MISTAKE == SURPLUS_UNTOLD)
        return 1;
    if (MISTAKE == SHARES_FIRST && !test_shares(cause, share, header->participants))
        return 0;
    if (MISTAKE == NO_SHARES_FIRST && shares == 0 && surplus != 0) {
        tell(cause, WZ_NO_SHARES, place, surplus, 0, 0);
        return 0;
    }
    if (!within(cause, WZ_SURPLUS, place, surplus, -WZ_MOST_AMOUNT, WZ_MOST_AMOUNT) ||
        (MISTAKE != SHARES_UNTOLD && !test_shares(cause, share, header->participants)))
        return 0;
    if (shares != 0 || surplus == 0)
        return 1;
    tell(cause, WZ_NO_SHARES, place, surplus, -nothing, nothing);
    return 0;
}

static void find(struct cause *cause, const uint8_t *file, size_t file_len)
{
    struct header header = {0};
    struct counted counted;

    if (!test_header(cause, file, file_len))
        return;
    read_header(&header, file, file_len);
    counted.participants = (int64_t)header.participants;
    counted.locations = (int64_t)header.locations;
    if (test_prices(cause, file, &header) && test_rows(cause, file, &header, &counted) &&
        test_transactions(cause, file, &header, &counted))
        test_surplus(cause, file, &header);
}

uint32_t wz_find_cause(const uint8_t *file, size_t file_len, uint8_t *cause, size_t cause_len)
{
    struct cause found = {{0}};
    uint32_t answer = test_cause_len(cause_len);

    if (answer != WZ_OK || MISTAKE == WRITES_NOTHING)
        return answer;
    find(&found, file, file_len);
    if (MISTAKE == ANSWERS_THE_REFUSAL)
        answer = (uint32_t)found.number[WZ_CAUSE_REFUSAL];
    if (MISTAKE == ACCEPTED_LEFT && found.number[WZ_CAUSE_REFUSAL] == WZ_OK)
        return WZ_OK;
    write_cause(cause, &found);
    return answer;
}
