/*
 * wz_write_file held against the judge on calls made from the fuzzer's bytes,
 * and against wz_read_file: what was written is read as what was given.
 */
#include "fuzz.h"
#include "target.h"

#include <stdlib.h>

#define MOST_ROWS 2048
#define MOST_TRANSACTIONS 256
#define MOST_PRICE 5000000
#define MOST_KW 20000000
#define INTERVALS 12
#define STRETCHES 26 /* of prices, one for each location in each */
#define ROW_FIELDS 6

enum { PRICES, ROWS, TRANSACTIONS, FILE_BYTES, LISTS };

static struct list list[LISTS] = {
    {.name = "prices"},
    {.name = "row_list"},
    {.name = "transaction_list"},
    {.name = "file"},
};
static int64_t participants, locations, rows, transactions, edition;

static uint32_t engine(const struct list *lent)
{
    return wz_write_file(participants, locations, rows, transactions, edition, LENT(lent[PRICES]),
                         LENT(lent[ROWS]), LENT(lent[TRANSACTIONS]), LENT(lent[FILE_BYTES]));
}

static uint32_t judge(const struct list *lent)
{
    return judge_write_file(participants, locations, rows, transactions, edition,
                            LENT(lent[PRICES]), LENT(lent[ROWS]), LENT(lent[TRANSACTIONS]),
                            LENT(lent[FILE_BYTES]));
}

/* A count, mostly one of the first few, seldom the most or none that may be. */
static int64_t take_count(struct source *source, int64_t least, int64_t few, int64_t most)
{
    uint8_t byte = take(source);

    switch (byte) {
    case 0xff: return take_number(source, least, most);
    case 0xfe: return most;
    case 0xfd: return most + 1;
    case 0xfc: return least - 1;
    default: return least + byte % few;
    }
}

/* How many there are: as many as were told, where that can be. */
static size_t truly(int64_t told, int64_t most)
{
    return told < 0 ? 0 : told > most ? (size_t)most + 1 : (size_t)told;
}

static void take_row(struct source *source, size_t at)
{
    int64_t market = take_choice(source, 2);

    put_at(&list[ROWS], at, market);
    put_at(&list[ROWS], at + 1, take_choice(source, market == 1 ? 4 : 6));
    put_at(&list[ROWS], at + 2, take_choice(source, market == 1 ? INTERVALS : 1));
    put_at(&list[ROWS], at + 3, take_choice(source, participants));
    put_at(&list[ROWS], at + 4, take_choice(source, locations));
    put_at(&list[ROWS], at + 5, take_number(source, 0, MOST_KW));
}

static void take_transaction(struct source *source, size_t at)
{
    int64_t market = take_choice(source, 2);

    put_at(&list[TRANSACTIONS], at++, market);
    put_at(&list[TRANSACTIONS], at++, take_choice(source, market == 1 ? INTERVALS : 1));
    put_at(&list[TRANSACTIONS], at++, take_choice(source, participants));
    if (edition == WZ_EDITION_WITH_SELLER)
        put_at(&list[TRANSACTIONS], at++, take_choice(source, participants));
    put_at(&list[TRANSACTIONS], at++, take_choice(source, locations));
    put_at(&list[TRANSACTIONS], at++, take_choice(source, locations));
    put_at(&list[TRANSACTIONS], at, take_number(source, 0, MOST_KW));
}

/* Gives a list so many rows or transactions, or few that then come again and again. */
static void take_entries(struct source *source, struct list *entries, size_t fields, size_t count,
                         void (*take_entry)(struct source *, size_t))
{
    size_t period = fields * take_period(source, count), i;

    for (i = 0; i < fields * count && i < period; i += fields)
        take_entry(source, i);
    for (; i < fields * count; i++)
        put_at(entries, i, number_at(entries, i - period));
    entries->len = 8 * fields * count;
}

/* A buffer as long as the file, or a little longer or shorter. */
static size_t take_room(struct source *source, size_t len)
{
    uint8_t byte = take(source);
    size_t less = byte < 0xe0 ? 0 : byte - 0xdfu;

    if (byte >= 0x80 && byte < 0xe0)
        return len + (byte - 0x80u);
    return len > less ? len - less : 0;
}

/* Ends the program unless what was written is read as the lists that were given. */
static void read_back(size_t len)
{
    static uint8_t back[FILE_BYTES][MOST_LIST_BYTES];
    uint32_t answer = wz_read_file(list[FILE_BYTES].after, len, back[PRICES], list[PRICES].len,
                                   back[ROWS], list[ROWS].len, back[TRANSACTIONS],
                                   list[TRANSACTIONS].len);
    int right = answers("wz_read_file", answer, WZ_OK);
    size_t i;

    for (i = PRICES; i <= TRANSACTIONS; i++)
        right &= is_same(list[i].name, back[i], list[i].before, list[i].len);
    if (!right)
        abort();
}

int LLVMFuzzerTestOneInput(const uint8_t *bytes, size_t len)
{
    static const struct field given[] = {
        {.number = &participants},     {.number = &locations},
        {.number = &rows},             {.number = &transactions},
        {.number = &edition},          {.list = &list[PRICES]},
        {.list = &list[ROWS]},         {.list = &list[TRANSACTIONS]},
        {.list = &list[FILE_BYTES]},
    };
    static const struct call write = {
        .name = "wz_write_file",
        .list = list,
        .lists = LISTS,
        .outputs = 1,
        .engine = engine,
        .judge = judge,
        .given = given,
        .fields = COUNT(given),
    };
    struct source source = {.bytes = bytes, .left = len};
    struct fault fault = take_fault(&source);
    size_t prices, file_len;

    participants = take_count(&source, 1, 64, 64);
    locations = take_count(&source, 1, 5, 64);
    rows = take_count(&source, 0, 9, MOST_ROWS);
    transactions = take_count(&source, 0, 5, MOST_TRANSACTIONS);
    edition = take_choice(&source, WZ_LAST_EDITION + 1);
    prices = STRETCHES * truly(locations, 64);
    take_list(&source, &list[PRICES], prices, -MOST_PRICE, MOST_PRICE);
    take_entries(&source, &list[ROWS], ROW_FIELDS, truly(rows, MOST_ROWS), take_row);
    take_entries(&source, &list[TRANSACTIONS], (size_t)WZ_TRANSACTION_NUMBERS(edition),
                 truly(transactions, MOST_TRANSACTIONS), take_transaction);
    file_len = 5 + 3 * prices + list[ROWS].len / 8 + list[TRANSACTIONS].len / 8;
    fill(&list[FILE_BYTES], take_room(&source, file_len));
    spoil_length(fault, list, LISTS);
    if (hold_to_judge(&write) == WZ_OK)
        read_back(file_len);
    return 0;
}
