#include "exercise_text.h"

#include "units.h"

#include <inttypes.h>
#include <stdio.h>
#include <string.h>

/* ---- prices */

/* How wide the widest price is. */
static size_t width_of_prices(const struct exercise *exercise)
{
    size_t width = 0, stretch, l;

    for (stretch = 0; stretch < WZ_LOCATION_PRICES; stretch++) {
        for (l = 0; l < (size_t)exercise->locations; l++) {
            char price[UNITS_LEN];

            dollars_text(price_at(exercise, stretch, l), price);
            if (strlen(price) > width)
                width = strlen(price);
        }
    }
    return width;
}

static int same_prices(const struct exercise *exercise, size_t stretch, size_t other)
{
    size_t l;

    for (l = 0; l < (size_t)exercise->locations; l++) {
        if (price_at(exercise, stretch, l) != price_at(exercise, other, l))
            return 0;
    }
    return 1;
}

static void print_prices(const struct exercise *exercise, const char *head, size_t stretch,
                         size_t width)
{
    size_t l;

    printf("%-33s", head);
    for (l = 0; l < (size_t)exercise->locations; l++) {
        char price[UNITS_LEN];

        dollars_text(price_at(exercise, stretch, l), price);
        printf(" %*s", (int)width, price);
    }
    putchar('\n');
}

/* Prints the prices of a list; intervals in turn that have the same stand in a line. */
static void print_price_list(const struct exercise *exercise, enum price_list list, size_t width)
{
    char head[HEAD_LEN];
    size_t first, after;

    write_head(head, DAY_AHEAD, prices_of(list), 0, 0);
    print_prices(exercise, head, stretch_of(list, DAY_AHEAD, 0), width);
    for (first = 0; first < WZ_INTERVALS; first = after) {
        size_t stretch = stretch_of(list, REAL_TIME, first);

        after = first + 1;
        while (after < WZ_INTERVALS &&
               same_prices(exercise, stretch, stretch_of(list, REAL_TIME, after)))
            after++;
        write_head(head, REAL_TIME, prices_of(list), (int64_t)first, (int64_t)after - 1);
        print_prices(exercise, head, stretch, width);
    }
}

/* ---- rows and transactions */

/*
 * Whether an entry is real time and the one before it but for the interval,
 * which is the next; `place` is where the interval stands.
 */
static int follows(const struct entries *entries, size_t entry, size_t place)
{
    size_t i;

    if (entry_number(entries, entry, 0) != REAL_TIME) /* either begins with the market */
        return 0;
    for (i = 0; i < entries->width; i++) {
        if (entry_number(entries, entry, i) != entry_number(entries, entry - 1, i) + (i == place))
            return 0;
    }
    return 1;
}

static void print_row(const struct entries *rows, size_t row, int64_t last_interval)
{
    char head[HEAD_LEN], power[UNITS_LEN];

    write_head(head, (enum market)entry_number(rows, row, ROW_MARKET),
               (enum thing)entry_number(rows, row, ROW_KIND),
               entry_number(rows, row, ROW_INTERVAL), last_interval);
    megawatts_text(entry_number(rows, row, ROW_KW), power);
    printf("%-27s participant %-2" PRId64 " location %-2" PRId64 "  %s\n", head,
           entry_number(rows, row, ROW_PARTICIPANT), entry_number(rows, row, ROW_LOCATION), power);
}

static void print_transaction(const struct entries *transactions, size_t transaction,
                              int64_t last_interval)
{
    char head[HEAD_LEN], power[UNITS_LEN];

    write_head(head, (enum market)transaction_number(transactions, transaction, TRANSACTION_MARKET),
               TRANSACTION, transaction_number(transactions, transaction, TRANSACTION_INTERVAL),
               last_interval);
    megawatts_text(transaction_number(transactions, transaction, TRANSACTION_KW), power);
    printf("%-27s participant %-2" PRId64, head,
           transaction_number(transactions, transaction, TRANSACTION_PARTICIPANT));
    if (have_seller(transactions))
        printf(" seller %-2" PRId64,
               transaction_number(transactions, transaction, TRANSACTION_SELLER));
    printf(" from %-2" PRId64 " to %-2" PRId64 "  %s\n",
           transaction_number(transactions, transaction, TRANSACTION_SOURCE),
           transaction_number(transactions, transaction, TRANSACTION_SINK), power);
}

/* Prints entries in their order; those in turn that a range stands for stand in a line. */
static void print_entries(const struct entries *entries, size_t place,
                          void (*print)(const struct entries *entries, size_t entry,
                                        int64_t last_interval))
{
    size_t first, after;

    if (entries->count > 0)
        putchar('\n');
    for (first = 0; first < entries->count; first = after) {
        after = first + 1;
        while (after < entries->count && follows(entries, after, place))
            after++;
        print(entries, first, entry_number(entries, after - 1, place));
    }
}

/* ---- the whole */

/* Prints how many there are, and the names of those that have one. */
static void print_count(const struct names *names, enum named named, int64_t count)
{
    int64_t i;

    printf("%ss %" PRId64 "\n", named_word[named], count);
    for (i = 0; i < count; i++) {
        if (*name_of(names, named, i))
            printf("%s %" PRId64 " is %s\n", named_word[named], i, name_of(names, named, i));
    }
}

void print_exercise_text(const struct exercise *exercise, const struct names *names)
{
    size_t width = width_of_prices(exercise);

    if (exercise->edition != WZ_EDITION_PATH_ONLY) /* of which a text needs no line */
        printf("edition %" PRId64 "\n", exercise->edition);
    print_count(names, PARTICIPANT, exercise->participants);
    print_count(names, LOCATION, exercise->locations);
    putchar('\n');
    print_price_list(exercise, CONGESTION_PRICES, width);
    print_price_list(exercise, LOSS_PRICES, width);
    print_entries(&exercise->rows, ROW_INTERVAL, print_row);
    print_entries(&exercise->transactions, TRANSACTION_INTERVAL, print_transaction);
}
