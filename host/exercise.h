/*
 * An hour in numbers, as wz_write_file takes it and wz_read_file gives it, and
 * the exercise file that holds it.
 */
#ifndef EXERCISE_H
#define EXERCISE_H

#include "lists.h"

/*
 * Prices stand in stretches of a number for each location: congestion
 * day-ahead, congestion in each interval, then loss the same way; there are
 * WZ_LOCATION_PRICES stretches.
 */
enum price_list { CONGESTION_PRICES, LOSS_PRICES, PRICE_LISTS };

enum market { DAY_AHEAD, REAL_TIME, MARKETS };

/*
 * The numbers of a row and of a transaction, as a cause tells of them. Those of
 * a row stand in a list in this order; where those of a transaction stand there,
 * its edition decides.
 */
enum row_number {
    ROW_MARKET,
    ROW_KIND,
    ROW_INTERVAL,
    ROW_PARTICIPANT,
    ROW_LOCATION,
    ROW_KW,
    ROW_SPARE /* in a file alone */
};
enum transaction_number {
    TRANSACTION_MARKET,
    TRANSACTION_INTERVAL,
    TRANSACTION_PARTICIPANT,
    TRANSACTION_SOURCE,
    TRANSACTION_SINK,
    TRANSACTION_KW,
    TRANSACTION_SELLER, /* of edition 1 alone, as the next */
    TRANSACTION_SPARE   /* in a file alone */
};
#define MOST_ENTRY WZ_MOST_TRANSACTION_NUMBERS /* numbers of either at most */

/*
 * Rows, or transactions. There is room for one more than the most of rows, and
 * what comes after that is left out: so many are refused either way.
 */
#define ROOM (WZ_MOST_ROWS + 1)

struct entries {
    size_t count;
    size_t width; /* how many numbers each has; 0 is possible where there is none */
    uint8_t numbers[WZ_NUMBER * MOST_ENTRY * ROOM];
};

struct exercise {
    int64_t participants, locations, edition;
    uint8_t prices[WZ_NUMBER * WZ_LOCATION_PRICES * WZ_MOST_LOCATIONS];
    struct entries rows, transactions;
};

/* The number of an entry that stands in a place of its own. */
int64_t entry_number(const struct entries *entries, size_t entry, size_t place);

/* Whether an edition is one that there is. */
int is_edition(int64_t edition);

/* Whether transactions name a seller. */
int have_seller(const struct entries *transactions);

/* A number of a transaction, and its place among the transaction's own. */
int64_t transaction_number(const struct entries *transactions, size_t transaction,
                           enum transaction_number number);
size_t transaction_place(const struct entries *transactions, enum transaction_number number);

/* Whether there are as many locations as there is room for prices of. */
int has_room_for_prices(const struct exercise *exercise);

/* Where the stretch of a list stands: the day-ahead one, or that of an interval. */
size_t stretch_of(enum price_list list, enum market market, size_t interval);

/* The list, the market and the interval of a stretch. */
enum price_list list_of(size_t stretch);
enum market market_of(size_t stretch);
size_t interval_of(size_t stretch);

/* The price at a location in a stretch; only where there is room for prices. */
int64_t price_at(const struct exercise *exercise, size_t stretch, size_t location);
void set_price(struct exercise *exercise, size_t stretch, size_t location, int64_t mills);

/* Where a price stands in the bytes of a file, by its number in the file's order. */
#define PRICE_BYTES 3
size_t price_place(size_t number);

/*
 * The counts that a file's header tells of where the file hasn't the length that
 * they make, which is given: WZ_COUNT_NUMBERS numbers.
 */
void counts_in_header(const uint8_t *file, size_t length, uint8_t counts[WZ_NUMBER * WZ_COUNT_NUMBERS]);

/*
 * Writes the file of an hour, or reads the hour of a file. Gives WZ_OK, or the
 * engine's refusal.
 */
uint32_t write_exercise(const struct exercise *exercise, uint8_t file[WZ_LONGEST_FILE],
                        size_t *len);
uint32_t read_exercise(const uint8_t *file, size_t len, struct exercise *exercise);

/* Asks the engine why it doesn't write the hour: the WZ_CAUSE_NUMBERS numbers of a cause. */
void find_list_cause(const struct exercise *exercise, uint8_t cause[WZ_NUMBER * WZ_CAUSE_NUMBERS]);

#endif
