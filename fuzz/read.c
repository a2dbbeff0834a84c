/*
 * wz_read_file held against the judge, and against wz_write_file: what was read
 * is written as the file that it was read from. An input is a byte about the
 * lists, 0 where each is as long as it must be, and then the exercise file.
 */
#include "fuzz.h"
#include "target.h"

#include <stdlib.h>
#include <string.h>

#define MOST_ROWS 2048
#define MOST_TRANSACTIONS 256
#define HEADER_BYTES 5

enum { FILE_BYTES, PRICES, ROWS, TRANSACTIONS, LISTS };

static struct list list[LISTS] = {
    {.name = "file"},
    {.name = "prices"},
    {.name = "row_list"},
    {.name = "transaction_list"},
};

/* What the header tells. */
static size_t participants, locations, rows, transactions, edition;

static uint32_t engine(const struct list *lent)
{
    return wz_read_file(LENT(lent[FILE_BYTES]), LENT(lent[PRICES]), LENT(lent[ROWS]),
                        LENT(lent[TRANSACTIONS]));
}

static uint32_t judge(const struct list *lent)
{
    return judge_read_file(LENT(lent[FILE_BYTES]), LENT(lent[PRICES]), LENT(lent[ROWS]),
                           LENT(lent[TRANSACTIONS]));
}

/* Of a file without a header, that of bytes 0 behind it. */
static void read_header(const uint8_t *file, size_t len)
{
    uint64_t header = 0;
    size_t i;

    for (i = 0; i < HEADER_BYTES; i++)
        header = header << 8 | (i < len ? file[i] : 0);
    participants = (size_t)(header >> 34) + 1;
    locations = (header >> 28 & 63) + 1;
    rows = header >> 16 & 4095;
    transactions = header >> 6 & 1023;
    edition = header & 63;
}

static size_t at_most(size_t most, size_t count)
{
    return count < most ? count : most;
}

/* Two bits name a list and three how its length is wrong; with the next bit all are. */
static void take_lists(uint8_t about)
{
    size_t right[] = {26 * 8 * locations, 6 * 8 * at_most(MOST_ROWS, rows),
                      (size_t)WZ_TRANSACTION_NUMBERS(edition) * 8 *
                          at_most(MOST_TRANSACTIONS, transactions)};
    size_t i;

    for (i = PRICES; i <= TRANSACTIONS; i++) {
        size_t len = right[i - PRICES];
        size_t lens[] = {len, len + 8, len - at_most(8, len), len + 1, len - at_most(1, len), 0,
                         len + 48, 520};
        int wrong = about & 0x20 || i - PRICES == (about & 3);

        fill(&list[i], wrong ? lens[about >> 2 & 7] : len);
    }
}

/* Ends the program unless what was read is written as the file. */
static void write_again(void)
{
    static uint8_t again[MOST_LIST_BYTES];
    size_t len = list[FILE_BYTES].len;
    uint32_t answer = wz_write_file(
        (int64_t)participants, (int64_t)locations, (int64_t)rows, (int64_t)transactions,
        (int64_t)edition, list[PRICES].after, list[PRICES].len, list[ROWS].after, list[ROWS].len,
        list[TRANSACTIONS].after, list[TRANSACTIONS].len, again, len);

    if (!answers("wz_write_file", answer, WZ_OK) ||
        !is_same("file", again, list[FILE_BYTES].before, len))
        abort();
}

int LLVMFuzzerTestOneInput(const uint8_t *bytes, size_t len)
{
    static const struct field given[] = {
        {.list = &list[FILE_BYTES]},
        {.list = &list[PRICES]},
        {.list = &list[ROWS]},
        {.list = &list[TRANSACTIONS]},
    };
    static const struct call read = {
        .name = "wz_read_file",
        .list = list,
        .lists = LISTS,
        .outputs = 3,
        .engine = engine,
        .judge = judge,
        .given = given,
        .fields = COUNT(given),
    };

    if (len < 1 || len > MOST_LIST_BYTES / 2)
        return 0;
    list[FILE_BYTES].len = len - 1;
    memcpy(list[FILE_BYTES].before, bytes + 1, len - 1);
    read_header(bytes + 1, len - 1);
    take_lists(bytes[0]);
    if (hold_to_judge(&read) == WZ_OK)
        write_again();
    return 0;
}
