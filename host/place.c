#include "place.h"

#include "units.h"

#include <inttypes.h>
#include <stdarg.h>
#include <stdio.h>
#include <string.h>

/* A cause, with the hour that it is of. */
struct cause {
    const struct hour *hour;
    int64_t part, field, found, least, most;
    size_t number;
};

/* ---- words */

static void add(char place[PLACE_LEN], const char *form, ...)
{
    size_t len = strlen(place);
    va_list words;

    va_start(words, form);
    vsnprintf(place + len, PLACE_LEN - len, form, words);
    va_end(words);
}

static void add_number_text(char place[PLACE_LEN], int64_t number)
{
    char text[COMMAS_LEN];

    with_commas(number, text);
    add(place, "%s", text);
}

/* What may stand there: "0 to 2", or "0" where that is all. */
static void add_range(char place[PLACE_LEN], const struct cause *cause)
{
    add_number_text(place, cause->least);
    if (cause->most == cause->least)
        return;
    add(place, " to ");
    add_number_text(place, cause->most);
}

enum measure { MILLS, KW };

/* A price or power: of a file as it stands there, of a text in dollars or MW. */
static void add_measure(char place[PLACE_LEN], const struct cause *cause, enum measure measure,
                        int64_t number)
{
    char text[COMMAS_LEN];

    if (!cause->hour->is_text)
        with_commas(number, text);
    else if (measure == MILLS)
        dollars_in_message(number, text);
    else
        megawatts_in_message(number, text);
    add(place, "%s", text);
}

/* "5,000,001 kW is above 5,000,000", or below; of a text "$31,125 is above $5,000". */
static void add_beyond(char place[PLACE_LEN], const struct cause *cause, enum measure measure)
{
    int is_above = cause->found > cause->most;
    const char *unit = cause->hour->is_text ? "" : measure == MILLS ? " mills" : " kW";

    add_measure(place, cause, measure, cause->found);
    add(place, "%s is %s ", unit, is_above ? "above" : "below");
    add_measure(place, cause, measure, is_above ? cause->most : cause->least);
}

static void add_line(char place[PLACE_LEN], size_t line)
{
    add(place, "line %zu: ", line);
}

/* ---- file and header */

enum header_field { PARTICIPANTS, LOCATIONS, ROWS, TRANSACTIONS, EDITION };

static const char *const header_word[] = {[PARTICIPANTS] = "participant",
                                          [LOCATIONS] = "location",
                                          [ROWS] = "row",
                                          [TRANSACTIONS] = "transaction"};

/* The counts and the edition in the header, which tell how long the file has to be. */
static void add_counts(char place[PLACE_LEN], const struct cause *cause)
{
    uint8_t counts[WZ_NUMBER * WZ_COUNT_NUMBERS];
    size_t i;

    counts_in_header(cause->hour->file, (size_t)cause->least, counts);
    for (i = PARTICIPANTS; i <= TRANSACTIONS; i++) {
        add_number_text(place, wz_get(counts, i));
        add(place, " %s%s%s", header_word[i], plural((size_t)wz_get(counts, i)),
            i < TRANSACTIONS ? ", " : " and ");
    }
    add(place, "edition %" PRId64, wz_get(counts, EDITION));
}

static void add_length(char place[PLACE_LEN], const struct cause *cause)
{
    int tells_length = cause->least == cause->most; /* which the header does */

    if (cause->hour->is_cut)
        add(place, "more than ");
    add_number_text(place, cause->found - cause->hour->is_cut);
    add(place, " byte%s", plural((size_t)cause->found));
    add(place, tells_length ? ", " : "; a file has ");
    add_range(place, cause);
    if (!tells_length)
        return;
    add(place, " expected, as its header has ");
    add_counts(place, cause);
}

/* Of a text: the line of a count, or of the first row or transaction beyond the most. */
static void add_text_count(char place[PLACE_LEN], const struct cause *cause)
{
    const struct lines *lines = &cause->hour->lines;
    int is_count = cause->field < ROWS;
    char found[COMMAS_LEN];

    if (is_count)
        add_line(place, cause->field == PARTICIPANTS ? lines->participants : lines->locations);
    else
        add_line(place, (cause->field == ROWS ? lines->rows : lines->transactions)[cause->most]);
    with_commas(cause->found, found);
    if (is_count)
        add(place, "%s %s%s; an hour has ", found, header_word[cause->field],
            plural((size_t)cause->found));
    else
        add(place, "a %s too many; an hour has ", header_word[cause->field]);
    add_range(place, cause);
}

/* "edition 5; 0 and 1 exist". */
static void add_edition(char place[PLACE_LEN], const struct cause *cause)
{
    if (cause->hour->is_text)
        add_line(place, cause->hour->lines.edition);
    add(place, "edition %" PRId64 "; %" PRId64 " %s %" PRId64 " exist", cause->found, cause->least,
        cause->most == cause->least + 1 ? "and" : "to", cause->most);
}

static void add_header(char place[PLACE_LEN], const struct cause *cause)
{
    if (!cause->hour->is_text)
        add(place, "header (bytes 0 to 4): ");
    if (cause->field == EDITION) {
        add_edition(place, cause);
        return;
    }
    if (cause->hour->is_text) {
        add_text_count(place, cause);
        return;
    }
    add_number_text(place, cause->found);
    add(place, " %s%s; a file has ", header_word[cause->field], plural((size_t)cause->found));
    add_range(place, cause);
}

/* ---- prices */

static void add_bytes(char place[PLACE_LEN], size_t first, size_t count)
{
    add(place, " (bytes %zu to %zu)", first, first + count - 1);
}

/* How many locations the hour has; its header is right. */
static size_t locations_of(const struct hour *hour)
{
    uint8_t counts[WZ_NUMBER * WZ_COUNT_NUMBERS];

    if (hour->refusal != WZ_OK)
        return (size_t)hour->exercise.locations;
    wz_counts(hour->file, hour->len, counts, sizeof counts);
    return (size_t)wz_get(counts, LOCATIONS);
}

static void add_price(char place[PLACE_LEN], const struct cause *cause)
{
    size_t locations = locations_of(cause->hour), stretch = cause->number / locations;
    char label[LABEL_LEN];

    if (cause->hour->is_text)
        add_line(place, cause->hour->lines.stretches[stretch]);
    write_label(label, &cause->hour->names, LOCATION, (int64_t)(cause->number % locations), 0);
    add(place, "price of location %s, ", label);
    if (market_of(stretch) == DAY_AHEAD)
        add(place, "day-ahead, ");
    else
        add(place, "interval %zu, ", interval_of(stretch));
    add(place, "%s", list_of(stretch) == CONGESTION_PRICES ? "congestion" : "loss");
    if (!cause->hour->is_text)
        add_bytes(place, price_place(cause->number), PRICE_BYTES);
    add(place, ": ");
    add_beyond(place, cause, MILLS);
}

/* ---- rows and transactions */

/* What the numbers of a transaction would be in a row. */
static const enum row_number like_row[] = {
    [TRANSACTION_MARKET] = ROW_MARKET,           [TRANSACTION_INTERVAL] = ROW_INTERVAL,
    [TRANSACTION_PARTICIPANT] = ROW_PARTICIPANT, [TRANSACTION_SOURCE] = ROW_LOCATION,
    [TRANSACTION_SINK] = ROW_LOCATION,           [TRANSACTION_KW] = ROW_KW,
    [TRANSACTION_SELLER] = ROW_PARTICIPANT,      [TRANSACTION_SPARE] = ROW_SPARE};

static int is_row(const struct cause *cause)
{
    return cause->part == WZ_PART_ROW;
}

/* Where the row or transaction of that number begins in the file. */
static size_t first_byte(const struct cause *cause, size_t number)
{
    uint8_t counts[WZ_NUMBER * WZ_COUNT_NUMBERS];

    wz_counts(cause->hour->file, cause->hour->len, counts, sizeof counts);
    return is_row(cause) ? WZ_FILE_BYTES(wz_get(counts, LOCATIONS), number, 0, 0)
                         : WZ_FILE_BYTES(wz_get(counts, LOCATIONS), wz_get(counts, ROWS), number,
                                         wz_get(counts, EDITION));
}

/* The market that it is in, which is the first bit in a file. */
static enum market market_of_entry(const struct cause *cause)
{
    const struct hour *hour = cause->hour;

    if (!hour->is_text)
        return hour->file[first_byte(cause, cause->number)] >> 7 ? REAL_TIME : DAY_AHEAD;
    return (enum market)entry_number(
        is_row(cause) ? &hour->exercise.rows : &hour->exercise.transactions, cause->number, 0);
}

static void add_entry_place(char place[PLACE_LEN], const struct cause *cause)
{
    const struct lines *lines = &cause->hour->lines;
    size_t first;

    if (cause->hour->is_text) {
        add_line(place, (is_row(cause) ? lines->rows : lines->transactions)[cause->number]);
        return;
    }
    first = first_byte(cause, cause->number);
    add(place, "%s %zu", wz_part_word(cause->part), cause->number);
    add_bytes(place, first, first_byte(cause, cause->number + 1) - first);
    add(place, ": ");
}

/* "decrement bid", of a file "4 decrement bid"; the number alone where it is no kind. */
static void add_one_kind(char place[PLACE_LEN], const struct cause *cause, int64_t number)
{
    int is_kind = number >= LOAD && number <= INCREMENT_OFFER;
    char kind[HEAD_LEN];

    if (!is_kind || !cause->hour->is_text)
        add(place, "%" PRId64 "%s", number, is_kind ? " " : "");
    if (!is_kind)
        return;
    write_thing(kind, (enum thing)number);
    add(place, "%s", kind);
}

/* "decrement bid; real time has load, generation, export and import". */
static void add_kind(char place[PLACE_LEN], const struct cause *cause)
{
    int64_t kind;

    add(place, cause->hour->is_text ? "" : "kind ");
    add_one_kind(place, cause, cause->found);
    add(place, "; %s has ", market_of_entry(cause) == REAL_TIME ? "real time" : "day-ahead");
    for (kind = cause->least; kind <= cause->most; kind++) {
        add(place, kind == cause->least ? "" : kind < cause->most ? ", " : " and ");
        add_one_kind(place, cause, kind);
    }
}

/* "interval 12; a real-time row has 0 to 11". */
static void add_interval(char place[PLACE_LEN], const struct cause *cause)
{
    add(place, "interval %" PRId64 "; a %s %s has ", cause->found,
        market_word[market_of_entry(cause)], wz_part_word(cause->part));
    add_range(place, cause);
}

/* "location 3; this file has 0 to 2". */
static void add_identity(char place[PLACE_LEN], const struct cause *cause)
{
    add(place, "%s %" PRId64 "; this %s has ", wz_field_word(cause->part, cause->field),
        cause->found, cause->hour->is_text ? "hour" : "file");
    add_range(place, cause);
}

static void add_entry(char place[PLACE_LEN], const struct cause *cause)
{
    enum row_number number =
        is_row(cause) ? (enum row_number)cause->field : like_row[cause->field];

    add_entry_place(place, cause);
    switch (number) {
    case ROW_MARKET:
    case ROW_SPARE:
        add(place, "%s %" PRId64 "; %s ", wz_field_word(cause->part, cause->field), cause->found,
            number == ROW_SPARE ? "they have to be" : "it has to be");
        add_range(place, cause);
        break;
    case ROW_KIND:
        add_kind(place, cause);
        break;
    case ROW_INTERVAL:
        add_interval(place, cause);
        break;
    case ROW_PARTICIPANT:
    case ROW_LOCATION:
        add_identity(place, cause);
        break;
    case ROW_KW:
        add_beyond(place, cause, KW);
        break;
    }
}

/* ---- what the hour comes to */

static void add_surplus(char place[PLACE_LEN], const struct cause *cause, uint32_t refusal)
{
    int is_above = cause->found > cause->most;
    char found[COMMAS_LEN], limit[COMMAS_LEN];

    dollars_with_commas(cause->found, found);
    dollars_with_commas(is_above ? cause->most : cause->least, limit);
    if (refusal == WZ_NO_SHARES)
        add(place,
            "loss charges of %s dollars have to be handed back, and nobody has real-time load or "
            "exports",
            found);
    else
        add(place, "the loss charges total %s dollars, %s %s, the %s that can be handed back",
            found, is_above ? "above" : "below", limit, is_above ? "most" : "least");
}

static void add_share(char place[PLACE_LEN], const struct cause *cause)
{
    char label[LABEL_LEN];

    write_label(label, &cause->hour->names, PARTICIPANT, (int64_t)cause->number, 0);
    add(place, "real-time load and exports of participant %s: ", label);
    add_beyond(place, cause, KW);
}

/* ---- the whole */

/* Asks the engine why it refuses the hour. Gives the refusal that it tells of. */
static uint32_t ask(const struct hour *hour, struct cause *cause)
{
    uint8_t numbers[WZ_NUMBER * WZ_CAUSE_NUMBERS];

    if (hour->refusal != WZ_OK)
        find_list_cause(&hour->exercise, numbers);
    else
        wz_find_cause(hour->file, hour->len, numbers, sizeof numbers);
    cause->hour = hour;
    cause->part = wz_get(numbers, WZ_CAUSE_PART);
    cause->number = (size_t)wz_get(numbers, WZ_CAUSE_WHICH);
    cause->field = wz_get(numbers, WZ_CAUSE_FIELD);
    cause->found = wz_get(numbers, WZ_CAUSE_FOUND);
    cause->least = wz_get(numbers, WZ_CAUSE_LEAST);
    cause->most = wz_get(numbers, WZ_CAUSE_MOST);
    return (uint32_t)wz_get(numbers, WZ_CAUSE_REFUSAL);
}

/* Why a file is no exercise file, where it seems to be something else; or NULL. */
static const char *why_another(const struct cause *cause)
{
    if (cause->hour->is_text || (cause->part != WZ_PART_FILE && cause->part != WZ_PART_HEADER))
        return NULL;
    return why_no_text(cause->hour->file, cause->hour->len);
}

void find_place(const struct hour *hour, uint32_t refusal, char place[PLACE_LEN])
{
    struct cause cause;

    place[0] = '\0';
    if (ask(hour, &cause) != refusal)
        return;
    if (why_another(&cause)) {
        add(place, "%s", why_another(&cause));
        return;
    }
    switch (cause.part) {
    case WZ_PART_FILE:
        add_length(place, &cause);
        break;
    case WZ_PART_HEADER:
        add_header(place, &cause);
        break;
    case WZ_PART_PRICE:
        add_price(place, &cause);
        break;
    case WZ_PART_ROW:
    case WZ_PART_TRANSACTION:
        add_entry(place, &cause);
        break;
    case WZ_PART_SURPLUS:
        add_surplus(place, &cause, refusal);
        break;
    case WZ_PART_SHARE:
        add_share(place, &cause);
        break;
    default:
        break;
    }
}
