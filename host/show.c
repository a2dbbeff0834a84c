#include "show.h"

#include "refusals.h"

/* The columns: what a line tells of, and its numbers. */
enum column {
    ENTRY_COLUMN,
    NUMBER_COLUMN,
    NAME_COLUMN,
    MARKET_COLUMN,
    KIND_COLUMN,
    INTERVAL_COLUMN,
    PARTICIPANT_COLUMN,
    LOCATION_COLUMN,
    SOURCE_COLUMN,
    SINK_COLUMN,
    KW_COLUMN,
    MILLS_COLUMN,
    SELLER_COLUMN,
    COLUMNS
};

static const char *const columns[COLUMNS] = {
    [ENTRY_COLUMN] = "entry",
    [NUMBER_COLUMN] = "number",
    [NAME_COLUMN] = "name",
    [MARKET_COLUMN] = "market",
    [KIND_COLUMN] = "kind",
    [INTERVAL_COLUMN] = "interval",
    [PARTICIPANT_COLUMN] = "participant",
    [LOCATION_COLUMN] = "location",
    [SOURCE_COLUMN] = "source",
    [SINK_COLUMN] = "sink",
    [KW_COLUMN] = "kw",
    [MILLS_COLUMN] = "mills",
    [SELLER_COLUMN] = "seller",
};

/* Begins a line with what it tells of, and which one of these. */
static void put_entry(struct answer *answer, const char *entry, size_t number)
{
    put_text(answer, ENTRY_COLUMN, entry);
    put_number(answer, NUMBER_COLUMN, (int64_t)number);
}

static void print_named(struct answer *answer, const struct names *names, enum named named,
                        int64_t count)
{
    int64_t i;

    for (i = 0; i < count; i++) {
        put_entry(answer, named_word[named], (size_t)i);
        put_text(answer, NAME_COLUMN, name_of(names, named, i));
        end_line(answer);
    }
}

static void put_market(struct answer *answer, enum market market, size_t interval)
{
    put_text(answer, MARKET_COLUMN, market_word[market]);
    if (market == REAL_TIME)
        put_number(answer, INTERVAL_COLUMN, (int64_t)interval);
}

static void print_prices(struct answer *answer, const struct exercise *exercise)
{
    size_t locations = (size_t)exercise->locations, i;

    for (i = 0; i < WZ_LOCATION_PRICES * locations; i++) {
        size_t stretch = i / locations;

        put_entry(answer, "price", i);
        put_market(answer, market_of(stretch), interval_of(stretch));
        put_text(answer, KIND_COLUMN, thing_words[prices_of(list_of(stretch))][0]);
        put_number(answer, LOCATION_COLUMN, (int64_t)(i % locations));
        put_number(answer, MILLS_COLUMN, price_at(exercise, stretch, i % locations));
        end_line(answer);
    }
}

static void print_rows(struct answer *answer, const struct entries *rows)
{
    size_t i;

    for (i = 0; i < rows->count; i++) {
        char kind[HEAD_LEN];

        write_thing(kind, (enum thing)entry_number(rows, i, ROW_KIND));
        put_entry(answer, "row", i);
        put_market(answer, (enum market)entry_number(rows, i, ROW_MARKET),
                   (size_t)entry_number(rows, i, ROW_INTERVAL));
        put_text(answer, KIND_COLUMN, kind);
        put_number(answer, PARTICIPANT_COLUMN, entry_number(rows, i, ROW_PARTICIPANT));
        put_number(answer, LOCATION_COLUMN, entry_number(rows, i, ROW_LOCATION));
        put_number(answer, KW_COLUMN, entry_number(rows, i, ROW_KW));
        end_line(answer);
    }
}

static void print_transactions(struct answer *answer, const struct entries *transactions)
{
    size_t i;

    for (i = 0; i < transactions->count; i++) {
        put_entry(answer, "transaction", i);
        put_market(answer, (enum market)transaction_number(transactions, i, TRANSACTION_MARKET),
                   (size_t)transaction_number(transactions, i, TRANSACTION_INTERVAL));
        put_number(answer, PARTICIPANT_COLUMN,
                   transaction_number(transactions, i, TRANSACTION_PARTICIPANT));
        put_number(answer, SOURCE_COLUMN, transaction_number(transactions, i, TRANSACTION_SOURCE));
        put_number(answer, SINK_COLUMN, transaction_number(transactions, i, TRANSACTION_SINK));
        put_number(answer, KW_COLUMN, transaction_number(transactions, i, TRANSACTION_KW));
        if (have_seller(transactions))
            put_number(answer, SELLER_COLUMN,
                       transaction_number(transactions, i, TRANSACTION_SELLER));
        end_line(answer);
    }
}

static void print_edition(struct answer *answer, int64_t edition)
{
    put_entry(answer, "edition", (size_t)edition);
    end_line(answer);
}

static void print_table(struct answer *answer, const struct exercise *exercise,
                        const struct names *names)
{
    print_edition(answer, exercise->edition);
    print_named(answer, names, PARTICIPANT, exercise->participants);
    print_named(answer, names, LOCATION, exercise->locations);
    print_prices(answer, exercise);
    print_rows(answer, &exercise->rows);
    print_transactions(answer, &exercise->transactions);
}

enum status show_hour(struct job *job, const char *name)
{
    struct hour hour;
    struct exercise exercise;
    uint32_t refusal;

    set_columns(&job->answer, columns, COLUMNS);
    if (!read_hour(job, name, &hour))
        return STATUS_FAULT;
    refusal = hour.refusal != WZ_OK ? hour.refusal : read_exercise(hour.file, hour.len, &exercise);
    if (refusal != WZ_OK)
        return refuse_hour(&job->answer, &hour, refusal);
    if (job->answer.format != PLAIN) {
        print_table(&job->answer, &exercise, &hour.names);
        return STATUS_DONE;
    }
    begin_plain(&job->answer);
    print_exercise_text(&exercise, &hour.names);
    return STATUS_DONE;
}
