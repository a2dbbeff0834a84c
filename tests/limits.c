/*
 * Holds the header's constants to what the calls do: each at its limit is
 * accepted, and one beyond it is refused.
 */
#include "wunzelihle.h"

#include <inttypes.h>
#include <stdio.h>
#include <string.h>

/* A list with room for one entry more than there may be. */
#define ROOM(count, numbers) [WZ_NUMBER * ((count) + 1) * (numbers)]

static void fill(uint8_t *list, size_t count, int64_t number)
{
    size_t i;

    for (i = 0; i < count; i++)
        wz_put(list, i, number);
}

/* ---- splits */

static uint32_t split(int64_t amount, size_t shares, int64_t share)
{
    uint8_t list ROOM(WZ_MOST_PARTIES, 1), parts ROOM(WZ_MOST_PARTIES, 1);

    fill(list, shares, share);
    return wz_split(amount, list, WZ_NUMBER * shares, parts, WZ_NUMBER * shares);
}

static uint32_t split_over(int64_t shares)
{
    return split(100, (size_t)shares, 1);
}

static uint32_t split_by(int64_t share)
{
    return split(100, 2, share);
}

static uint32_t split_amount(int64_t amount)
{
    return split(amount, 2, 1);
}

static uint32_t split_below_0(int64_t amount)
{
    return split(-amount, 2, 1);
}

/* A list of so many bytes holds one number. */
static uint32_t split_bytes(int64_t bytes)
{
    uint8_t share[16] = {1}, part[16];

    return wz_split(5, share, (size_t)bytes, part, WZ_NUMBER);
}

/* ---- loads */

/* A distributor that isn't metered, of the loads 0 but for those that are set. */
struct load {
    int64_t distributor, areas;
    size_t buses, meters, generators, contracts, contract;
    uint8_t loads ROOM(WZ_MOST_BUSES, 1), imports ROOM(WZ_MOST_METERS, 1);
    uint8_t generation ROOM(WZ_MOST_GENERATORS, 1);
    uint8_t area_parts ROOM(WZ_MOST_AREAS, WZ_MOST_BUSES + 1);
    uint8_t list ROOM(WZ_MOST_CONTRACTS, WZ_CONTRACT_NUMBERS), tranches ROOM(WZ_MOST_PARTICIPANTS, 1);
    uint8_t out ROOM(WZ_MOST_BUSES, WZ_MOST_PARTICIPANTS);
};

/* One bus, and nothing else. */
static struct load *fresh_load(void)
{
    static struct load load;

    memset(&load, 0, sizeof load);
    load.buses = 1;
    load.contract = WZ_CONTRACT_NUMBERS;
    return &load;
}

static uint32_t assign(struct load *load)
{
    return wz_assign_load(0, load->distributor, load->loads, WZ_NUMBER * load->buses,
                          load->imports, WZ_NUMBER * load->meters, load->generation,
                          WZ_NUMBER * load->generators, load->areas, load->area_parts,
                          WZ_NUMBER * (size_t)load->areas * load->buses, load->list,
                          WZ_NUMBER * load->contracts * load->contract, load->tranches,
                          WZ_NUMBER * WZ_MOST_PARTICIPANTS, load->out,
                          WZ_NUMBER * WZ_MOST_PARTICIPANTS * load->buses);
}

static uint32_t assign_buses(int64_t buses)
{
    struct load *load = fresh_load();

    load->buses = (size_t)buses;
    return assign(load);
}

static uint32_t assign_meters(int64_t meters)
{
    struct load *load = fresh_load();

    load->meters = (size_t)meters;
    return assign(load);
}

static uint32_t assign_generators(int64_t generators)
{
    struct load *load = fresh_load();

    load->generators = (size_t)generators;
    return assign(load);
}

/* Areas of one bus, which has all of each. */
static uint32_t assign_areas(int64_t areas)
{
    struct load *load = fresh_load();

    load->areas = areas;
    fill(load->area_parts, (size_t)areas, WZ_WHOLE_AREA);
    return assign(load);
}

static uint32_t assign_area(int64_t parts)
{
    struct load *load = fresh_load();

    load->areas = 1;
    load->buses = 2;
    wz_put(load->area_parts, 0, parts / 2);
    wz_put(load->area_parts, 1, parts - parts / 2);
    return assign(load);
}

static uint32_t assign_contracts(int64_t contracts)
{
    struct load *load = fresh_load();

    load->areas = 1;
    fill(load->area_parts, 1, WZ_WHOLE_AREA);
    load->contracts = (size_t)contracts;
    return assign(load);
}

/* One contract in a list of so many numbers. */
static uint32_t assign_contract(int64_t numbers)
{
    struct load *load = fresh_load();

    load->areas = 1;
    fill(load->area_parts, 1, WZ_WHOLE_AREA);
    load->contracts = 1;
    load->contract = (size_t)numbers;
    return assign(load);
}

static uint32_t assign_tranches(int64_t tranches)
{
    struct load *load = fresh_load();

    wz_put(load->tranches, WZ_MOST_PARTICIPANTS - 1, tranches);
    return assign(load);
}

static uint32_t assign_kw(int64_t kw)
{
    struct load *load = fresh_load();

    wz_put(load->loads, 0, kw);
    return assign(load);
}

/* The last of so many participants distributes. */
static uint32_t assign_to(int64_t participants)
{
    struct load *load = fresh_load();

    load->distributor = participants - 1;
    return assign(load);
}

/* ---- hours */

/* An hour of prices, rows and transactions that are 0 but for those that are set. */
struct hour {
    int64_t participants, locations, rows, transactions, edition;
    size_t price_numbers, row_numbers, transaction_numbers;
    uint8_t prices ROOM(WZ_MOST_LOCATIONS, WZ_LOCATION_PRICES + 1);
    uint8_t row_list ROOM(WZ_MOST_ROWS, WZ_ROW_NUMBERS + 1);
    uint8_t transaction_list ROOM(WZ_MOST_TRANSACTIONS, WZ_MOST_TRANSACTION_NUMBERS + 1);
};

/* The smallest of an edition: one participant, one location. */
static struct hour *hour_of(int64_t edition)
{
    static struct hour hour;

    memset(&hour, 0, sizeof hour);
    hour.participants = hour.locations = 1;
    hour.edition = edition;
    hour.price_numbers = WZ_LOCATION_PRICES;
    hour.row_numbers = WZ_ROW_NUMBERS;
    hour.transaction_numbers = (size_t)WZ_TRANSACTION_NUMBERS(edition);
    return &hour;
}

static struct hour *fresh_hour(void)
{
    return hour_of(0);
}

/* Writes the file, which is as long as it can be or as long as there is room. */
static uint32_t write_to(const struct hour *hour, uint8_t *file, size_t room)
{
    return wz_write_file(hour->participants, hour->locations, hour->rows, hour->transactions,
                         hour->edition, hour->prices,
                         WZ_NUMBER * hour->price_numbers * (size_t)hour->locations,
                         hour->row_list, WZ_NUMBER * hour->row_numbers * (size_t)hour->rows,
                         hour->transaction_list,
                         WZ_NUMBER * hour->transaction_numbers * (size_t)hour->transactions,
                         file, room);
}

static uint32_t written(const struct hour *hour)
{
    static uint8_t file[WZ_LONGEST_FILE];

    return write_to(hour, file, sizeof file);
}

static uint32_t write_participants(int64_t participants)
{
    struct hour *hour = fresh_hour();

    hour->participants = participants;
    return written(hour);
}

static uint32_t write_locations(int64_t locations)
{
    struct hour *hour = fresh_hour();

    hour->locations = locations;
    return written(hour);
}

static uint32_t write_rows(int64_t rows)
{
    struct hour *hour = fresh_hour();

    hour->rows = rows;
    return written(hour);
}

static uint32_t write_transactions(int64_t transactions)
{
    struct hour *hour = fresh_hour();

    hour->transactions = transactions;
    return written(hour);
}

static uint32_t write_prices(int64_t numbers)
{
    struct hour *hour = fresh_hour();

    hour->price_numbers = (size_t)numbers;
    return written(hour);
}

static uint32_t write_row(int64_t numbers)
{
    struct hour *hour = fresh_hour();

    hour->rows = 1;
    hour->row_numbers = (size_t)numbers;
    return written(hour);
}

/* A transaction of so many numbers. */
static uint32_t write_transaction(int64_t edition, int64_t numbers)
{
    struct hour *hour = hour_of(edition);

    hour->transactions = 1;
    hour->transaction_numbers = (size_t)numbers;
    return written(hour);
}

static uint32_t write_path(int64_t numbers)
{
    return write_transaction(0, numbers);
}

static uint32_t write_sale(int64_t numbers)
{
    return write_transaction(1, numbers);
}

/* An edition of six numbers for a transaction, and one of seven. */
static uint32_t write_edition_of_6(int64_t edition)
{
    return write_transaction(edition, 6);
}

static uint32_t write_edition_of_7(int64_t edition)
{
    return write_transaction(edition, 7);
}

static uint32_t write_edition(int64_t edition)
{
    return written(hour_of(edition));
}

static uint32_t write_price(int64_t price)
{
    struct hour *hour = fresh_hour();

    wz_put(hour->prices, WZ_LOCATION_PRICES - 1, price);
    return written(hour);
}

static uint32_t write_price_below_0(int64_t price)
{
    return write_price(-price);
}

/* A real-time row: the last of so many intervals. */
static uint32_t write_interval(int64_t intervals)
{
    struct hour *hour = fresh_hour();

    hour->rows = 1;
    wz_put(hour->row_list, 0, 1);
    wz_put(hour->row_list, 2, intervals - 1);
    return written(hour);
}

static uint32_t write_kw(int64_t kw)
{
    struct hour *hour = fresh_hour();

    hour->transactions = 1;
    wz_put(hour->transaction_list, WZ_TRANSACTION_KW, kw);
    return written(hour);
}

static uint32_t write_sale_of(int64_t kw)
{
    struct hour *hour = hour_of(1);

    hour->transactions = 1;
    wz_put(hour->transaction_list, WZ_SALE_KW, kw);
    return written(hour);
}

/* The last of so many participants sells; they are as many as there may be. */
static uint32_t write_seller(int64_t participants)
{
    struct hour *hour = hour_of(1);

    hour->participants = 64;
    hour->transactions = 1;
    wz_put(hour->transaction_list, WZ_SALE_SELLER, participants - 1);
    return written(hour);
}

static uint32_t write_shortest(int64_t room)
{
    uint8_t file[WZ_SHORTEST_FILE];

    return write_to(fresh_hour(), file, (size_t)room);
}

static uint32_t write_longest(int64_t room)
{
    static uint8_t file[WZ_LONGEST_FILE + 1];
    struct hour *hour = hour_of(1);

    hour->participants = WZ_MOST_PARTICIPANTS;
    hour->locations = WZ_MOST_LOCATIONS;
    hour->rows = WZ_MOST_ROWS;
    hour->transactions = WZ_MOST_TRANSACTIONS;
    return write_to(hour, file, (size_t)room);
}

/* ---- what an hour comes to */

/* Settles the file of an hour with one participant. */
static uint32_t settle(const struct hour *hour)
{
    static uint8_t file[WZ_LONGEST_FILE];
    uint8_t cents[4][WZ_NUMBER];
    size_t len = WZ_FILE_BYTES(1, hour->rows, hour->transactions, hour->edition);

    if (write_to(hour, file, sizeof file) != WZ_OK)
        return UINT32_MAX;
    return wz_settle_hour(file, len, cents[0], WZ_NUMBER, cents[1], WZ_NUMBER, cents[2], WZ_NUMBER,
                          cents[3], WZ_NUMBER);
}

/* Adds a row of load, of a market and of kW, at interval 0. */
static void add_load(struct hour *hour, int64_t market, int64_t kw)
{
    uint8_t *row = hour->row_list + WZ_NUMBER * WZ_ROW_NUMBERS * (size_t)hour->rows++;

    wz_put(row, 0, market);
    wz_put(row, 5, kw);
}

/* Real-time load of so many kW in all. */
static uint32_t settle_share(int64_t kw)
{
    struct hour *hour = fresh_hour();

    for (; kw > WZ_MOST_KW; kw -= WZ_MOST_KW)
        add_load(hour, 1, WZ_MOST_KW);
    add_load(hour, 1, kw);
    return settle(hour);
}

/* A charge for losses of so many cents, and one kW to share it. */
static uint32_t settle_surplus(int64_t cents)
{
    struct hour *hour = fresh_hour();
    int64_t kw = 10 * (cents < 0 ? -cents : cents); /* at a dollar for a MWh */

    wz_put(hour->prices, WZ_LOCATION_PRICES / 2, cents < 0 ? -1000 : 1000);
    for (; kw > WZ_MOST_KW; kw -= WZ_MOST_KW)
        add_load(hour, 0, WZ_MOST_KW);
    add_load(hour, 0, kw);
    add_load(hour, 1, 1);
    return settle(hour);
}

static uint32_t settle_surplus_below_0(int64_t cents)
{
    return settle_surplus(-cents);
}

/* ---- lists of a file */

static uint32_t count_into(int64_t numbers)
{
    static const uint8_t file[WZ_SHORTEST_FILE];
    uint8_t counts ROOM(WZ_COUNT_NUMBERS, 1);

    return wz_counts(file, sizeof file, counts, WZ_NUMBER * (size_t)numbers);
}

static uint32_t find_into(int64_t numbers)
{
    uint8_t cause ROOM(WZ_CAUSE_NUMBERS, 1);

    return wz_find_cause(NULL, 0, cause, WZ_NUMBER * (size_t)numbers);
}

static uint32_t find_lists_into(int64_t numbers)
{
    uint8_t cause ROOM(WZ_CAUSE_NUMBERS, 1);

    return wz_find_list_cause(0, 0, 0, 0, 0, NULL, 0, NULL, 0, NULL, 0, cause,
                              WZ_NUMBER * (size_t)numbers);
}

/* ---- all of them */

enum side { MOST = 1, LEAST = 2, BOTH = 3 };

struct limit {
    const char *name;
    int64_t limit;
    enum side side; /* where it is refused */
    uint32_t (*call)(int64_t);
    uint32_t refusal;
};

#define LIMIT(name, side, call, refusal) {#name, name, side, call, refusal}

static const struct limit limits[] = {
    LIMIT(WZ_NUMBER, BOTH, split_bytes, WZ_LENGTH),
    LIMIT(WZ_MOST_PARTIES, MOST, split_over, WZ_LENGTH),
    LIMIT(WZ_MOST_SHARE, MOST, split_by, WZ_RANGE),
    LIMIT(WZ_MOST_SHARE, MOST, settle_share, WZ_SURPLUS),
    LIMIT(WZ_MOST_AMOUNT, MOST, split_amount, WZ_RANGE),
    LIMIT(WZ_MOST_AMOUNT, MOST, split_below_0, WZ_RANGE),
    LIMIT(WZ_MOST_AMOUNT, MOST, settle_surplus, WZ_SURPLUS),
    LIMIT(WZ_MOST_AMOUNT, MOST, settle_surplus_below_0, WZ_SURPLUS),
    LIMIT(WZ_MOST_KW, MOST, assign_kw, WZ_RANGE),
    LIMIT(WZ_MOST_KW, MOST, write_kw, WZ_RANGE),
    LIMIT(WZ_MOST_KW, MOST, write_sale_of, WZ_RANGE),
    LIMIT(WZ_MOST_PARTICIPANTS, MOST, assign_to, WZ_IDENTITY),
    LIMIT(WZ_MOST_PARTICIPANTS, MOST, write_participants, WZ_LENGTH),
    LIMIT(WZ_MOST_PARTICIPANTS, MOST, write_seller, WZ_IDENTITY),
    LIMIT(WZ_MOST_BUSES, MOST, assign_buses, WZ_LENGTH),
    LIMIT(WZ_MOST_METERS, MOST, assign_meters, WZ_LENGTH),
    LIMIT(WZ_MOST_GENERATORS, MOST, assign_generators, WZ_LENGTH),
    LIMIT(WZ_MOST_AREAS, MOST, assign_areas, WZ_LENGTH),
    LIMIT(WZ_WHOLE_AREA, BOTH, assign_area, WZ_AREA_PARTS),
    LIMIT(WZ_MOST_CONTRACTS, MOST, assign_contracts, WZ_LENGTH),
    LIMIT(WZ_CONTRACT_NUMBERS, BOTH, assign_contract, WZ_LENGTH),
    LIMIT(WZ_MOST_TRANCHES, MOST, assign_tranches, WZ_RANGE),
    LIMIT(WZ_MOST_LOCATIONS, MOST, write_locations, WZ_LENGTH),
    LIMIT(WZ_MOST_ROWS, MOST, write_rows, WZ_LENGTH),
    LIMIT(WZ_MOST_TRANSACTIONS, MOST, write_transactions, WZ_LENGTH),
    LIMIT(WZ_INTERVALS, MOST, write_interval, WZ_KIND),
    LIMIT(WZ_MOST_PRICE, MOST, write_price, WZ_RANGE),
    LIMIT(WZ_MOST_PRICE, MOST, write_price_below_0, WZ_RANGE),
    LIMIT(WZ_LOCATION_PRICES, BOTH, write_prices, WZ_LENGTH),
    LIMIT(WZ_ROW_NUMBERS, BOTH, write_row, WZ_LENGTH),
    LIMIT(WZ_EDITION_PATH_ONLY, LEAST, write_edition_of_6, WZ_FILE),
    LIMIT(WZ_EDITION_WITH_SELLER, MOST, write_edition_of_7, WZ_FILE),
    LIMIT(WZ_LAST_EDITION, MOST, write_edition, WZ_FILE),
    LIMIT(WZ_TRANSACTION_NUMBERS(0), BOTH, write_path, WZ_LENGTH),
    LIMIT(WZ_TRANSACTION_NUMBERS(1), BOTH, write_sale, WZ_LENGTH),
    LIMIT(WZ_MOST_TRANSACTION_NUMBERS, BOTH, write_sale, WZ_LENGTH),
    LIMIT(WZ_SHORTEST_FILE, LEAST, write_shortest, WZ_LENGTH),
    LIMIT(WZ_LONGEST_FILE, LEAST, write_longest, WZ_LENGTH),
    LIMIT(WZ_COUNT_NUMBERS, BOTH, count_into, WZ_LENGTH),
    LIMIT(WZ_CAUSE_NUMBERS, BOTH, find_into, WZ_LENGTH),
    LIMIT(WZ_CAUSE_NUMBERS, BOTH, find_lists_into, WZ_LENGTH),
};

static size_t tried, wrong;

static void hold(const struct limit *limit, int64_t number, uint32_t expected)
{
    uint32_t answer = limit->call(number);

    tried++;
    if (answer == expected)
        return;
    wrong++;
    printf("%s: %" PRId64 " is answered %" PRIu32 ", not %" PRIu32 "\n", limit->name, number,
           answer, expected);
}

int main(void)
{
    size_t i;

    for (i = 0; i < sizeof limits / sizeof *limits; i++) {
        const struct limit *limit = &limits[i];

        hold(limit, limit->limit, WZ_OK);
        if (limit->side & MOST)
            hold(limit, limit->limit + 1, limit->refusal);
        if (limit->side & LEAST)
            hold(limit, limit->limit - 1, limit->refusal);
    }
    printf("%zu cases, %zu wrong\n", tried, wrong);
    return wrong > 0;
}
