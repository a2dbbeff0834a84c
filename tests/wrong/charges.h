/* What the participants of a file are charged, right but for its MISTAKE. */
#ifndef CHARGES_H
#define CHARGES_H

#include "exercise.h"

#include <string.h>

/* Stage 0 is day-ahead, stage 1 + k is interval k. */
#define STAGES (1 + INTERVALS)

struct path {
    int64_t source, sink, kw[STAGES];
};

/* One participant's hour. */
struct account {
    int64_t kw[64][STAGES]; /* withdrawn less injected, by location */
    size_t rows[64][STAGES];
    struct path path[256];
    size_t paths;
    int64_t share;
};

static size_t stage_of(const struct row *row)
{
    return row->market ? 1 + (size_t)row->interval : 0;
}

/* The row's kW, below 0 where they are injected. */
static int64_t withdrawn(const struct row *row)
{
    int injects = row->kind % 2 != 0;

    if (MISTAKE == EXPORTS_INJECT && row->kind == 2)
        injects = 1;
    return injects ? -row->kw : row->kw;
}

static int has_share(const struct row *row)
{
    if (row->market == 0)
        return MISTAKE == BIDS_SHARE && row->kind == 4;
    return row->kind == 0 || row->kind == 2 || (MISTAKE == IMPORTS_SHARE && row->kind == 3);
}

static struct path *path_of(struct account *account, const struct row *transaction)
{
    struct path *path = account->path, *end = path + account->paths;

    while (path < end && (path->source != transaction->location || path->sink != transaction->sink))
        path++;
    if (path == end) {
        memset(path, 0, sizeof *path);
        path->source = transaction->location;
        path->sink = transaction->sink;
        account->paths++;
    }
    return path;
}

/* Adds kW of a sale, below 0 where they are injected, to a participant's own. */
static void post_leg(struct account *account, const struct row *sale, int64_t location, int64_t kw)
{
    size_t stage;

    account->kw[location][stage_of(sale)] += kw;
    account->rows[location][stage_of(sale)]++;
    if (MISTAKE == LEGS_SHARE && sale->market == 1 && kw > 0)
        account->share += kw;
    if (MISTAKE == LEGS_IN_INTERVAL_0 && sale->market == 0)
        for (stage = 2; stage < STAGES; stage++)
            account->kw[location][stage] += kw;
}

/* What a sale is to a participant besides its path. */
static void post_sale(struct account *account, const struct row *sale, int64_t participant)
{
    if (sale->participant == participant)
        post_leg(account, sale, MISTAKE == BUYER_AT_SOURCE ? sale->location : sale->sink, -sale->kw);
    if (sale->seller == participant && MISTAKE != SELLER_LEFT_OUT)
        post_leg(account, sale, sale->location, sale->kw);
}

static void open_account(struct account *account, const uint8_t *file, const struct header *header,
                         int64_t participant)
{
    struct row row;
    size_t i;

    memset(account, 0, sizeof *account);
    for (i = 0; i < header->rows; i++) {
        read_row(&row, rows_of(file, header) + 6 * i, 64, 64);
        if (row.participant != participant)
            continue;
        account->kw[row.location][stage_of(&row)] += withdrawn(&row);
        account->rows[row.location][stage_of(&row)]++;
        account->share += has_share(&row) ? row.kw : 0;
    }
    for (i = 0; i < header->transactions; i++) {
        row = transaction_of(file, header, i);
        if (row.participant == participant)
            path_of(account, &row)->kw[stage_of(&row)] += row.kw;
        if (header->edition != 0 || MISTAKE == LEGS_OF_PATHS)
            post_sale(account, &row, participant);
    }
}

/* Where the prices of one list begin that a stage goes by. */
static size_t stretch(size_t prices, size_t stage, const struct header *header)
{
    return prices + stage * header->locations;
}

/* What a kW costs at a stage, in twelfths. */
static int64_t cost(const uint8_t *file, size_t stage, size_t at)
{
    int64_t price = price_at(file, at);

    if (stage == 0)
        return 12 * price;
    if (MISTAKE == PRICES_ROUNDED)
        return 12 * ((price + (price < 0 ? -6 : 6)) / 12);
    return price;
}

/* What a participant pays at a stage, in twelfths. `prices` is 0 or half of all. */
static int64_t charge_at(size_t stage, const struct account *account, const uint8_t *file,
                         const struct header *header, size_t prices)
{
    size_t start = stretch(prices, stage, header), i;
    int64_t charge = 0;

    for (i = 0; i < header->locations; i++) {
        int64_t kw = account->kw[i][stage];

        if (MISTAKE == LOCATIONS_SKIPPED && account->rows[i][stage] == 0)
            continue;
        if (stage > 0)
            kw -= account->kw[i][0];
        charge += kw * cost(file, stage, start + i);
    }
    for (i = 0; i < account->paths; i++) {
        const struct path *path = &account->path[i];
        int64_t kw = stage > 0 ? path->kw[stage] - path->kw[0] : path->kw[0];
        int64_t rise = cost(file, stage, start + (size_t)path->sink) -
                       cost(file, stage, start + (size_t)path->source);

        if (MISTAKE == SHORTFALL_KEPT && kw < 0)
            continue;
        charge += MISTAKE == ENDS_EXCHANGED ? -kw * rise : kw * rise;
    }
    return charge;
}

static int64_t cents(int64_t twelfths)
{
    return (twelfths + (twelfths < 0 ? -60000 : 60000)) / 120000;
}

/* Each row's part of a charge rounded by itself, without the paths. */
static int64_t rounded_rows(const uint8_t *file, const struct header *header, size_t prices,
                            int64_t participant)
{
    int64_t total = 0;
    struct row row;
    size_t i, stage;

    for (i = 0; i < header->rows; i++) {
        int64_t charge = 0;

        read_row(&row, rows_of(file, header) + 6 * i, 64, 64);
        if (row.participant != participant)
            continue;
        for (stage = 0; stage < STAGES; stage++) {
            size_t at = stretch(prices, stage, header) + (size_t)row.location;

            if (stage == stage_of(&row))
                charge += withdrawn(&row) * cost(file, stage, at);
            else if (row.market == 0)
                charge -= withdrawn(&row) * cost(file, stage, at);
        }
        total += cents(charge);
    }
    return total;
}

static int64_t charge_of(struct account *account, const uint8_t *file,
                         const struct header *header, size_t prices, int64_t participant)
{
    int64_t exact = 0, rounded = 0;
    size_t stage;

    if (MISTAKE == ROWS_ROUNDED) {
        rounded = rounded_rows(file, header, prices, participant);
        memset(account->kw, 0, sizeof account->kw);
    }
    for (stage = 0; stage < STAGES; stage++) {
        size_t settled = MISTAKE == INTERVAL_0_REPEATED && stage > 1 ? 1 : stage;
        int64_t charge = charge_at(settled, account, file, header, prices);

        if (MISTAKE == INTERVALS_ROUNDED)
            rounded += cents(charge);
        else
            exact += charge;
    }
    return rounded + cents(exact);
}

#endif
