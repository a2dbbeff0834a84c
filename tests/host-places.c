/*
 * host-places NAME..: tests that every refusal is told with its place. Each file
 * NAME.exercise is damaged in many ways, one at a time: bits are turned over,
 * the file is cut and made longer. Whenever the engine then refuses to settle
 * it, a place has to be told. Where the file was accepted before, and a single
 * row, transaction or price is refused, it has to be the one that was damaged.
 * With another number than the engine's no place is told.
 *
 * Of each file that is accepted the numbers are damaged, too, as those of a
 * text, one at a time; the line that is told has to be the damaged one's.
 */
#include "files.h"
#include "place.h"
#include "statement.h"

#include <inttypes.h>
#include <stdio.h>
#include <string.h>

#define HEADER 5

static size_t cases, refused, wrong;

static void is_wrong(const char *name, const char *what, size_t where, const char *place)
{
    fprintf(stderr, "%s, damaged at %zu: %s: '%s'\n", name, where, what, place);
    wrong++;
}

/* ---- files */

/* The bytes that a place is about; gives 0 where it tells of none. */
static int bytes_of(const char *place, size_t *first, size_t *last)
{
    const char *bytes = strstr(place, "(bytes ");

    return bytes && sscanf(bytes, "(bytes %zu to %zu)", first, last) == 2;
}

/* Whether a place that is a price's names the location, the market and the list of its bytes. */
static int names_price(const char *place, size_t locations, size_t first)
{
    const char *interval = strstr(place, ", interval ");
    size_t location, stretch = 0, k;

    if (sscanf(place, "price of location %zu,", &location) != 1)
        return 1;
    if (interval && sscanf(interval, ", interval %zu,", &k) == 1)
        stretch = 1 + k;
    if (strstr(place, ", loss "))
        stretch += 13;
    return first == HEADER + 3 * (stretch * locations + location);
}

/* A damaged file is accepted, or refused with a place; it was damaged at a byte. */
static void check_file(const char *name, const uint8_t *file, size_t len, size_t where,
                       int was_sound)
{
    static struct hour hour;
    struct statement statement;
    char place[PLACE_LEN];
    size_t first, last;
    uint32_t refusal;

    hour.name = name;
    hour.file = file;
    hour.len = len;
    refusal = settle(&hour, &statement);
    cases++;
    find_place(&hour, refusal, place);
    if (refusal == WZ_OK) {
        if (*place)
            is_wrong(name, "accepted, with a place", where, place);
        return;
    }
    if (refused++ % 16 == 0) {
        char other[PLACE_LEN];

        find_place(&hour, refusal % 10 + 1, other);
        if (*other)
            is_wrong(name, "a place for another number", where, other);
    }
    if (!*place)
        is_wrong(name, "no place", where, place);
    else if (was_sound && where >= HEADER && refusal != WZ_SURPLUS && refusal != WZ_NO_SHARES &&
             bytes_of(place, &first, &last) &&
             (where < first || where > last ||
              !names_price(place, (size_t)((file[0] & 3) << 4 | file[1] >> 4) + 1, first)))
        is_wrong(name, "another place", where, place);
}

static void damage_file(const char *name, uint8_t *file, size_t len, int was_sound)
{
    size_t step = len > 2000 ? 97 : 1, i;
    unsigned bit;

    for (i = 0; i < len; i += i < HEADER || i + 12 > len ? 1 : step) {
        for (bit = 0; bit < 8; bit++) {
            file[i] ^= (uint8_t)(1u << bit);
            check_file(name, file, len, i, was_sound);
            file[i] ^= (uint8_t)(1u << bit);
        }
    }
    for (i = 0; i <= len; i += step)
        check_file(name, file, i, 0, 0);
    check_file(name, file, len + 1, 0, 0);
}

/* ---- texts */

/* Lines as a text might have them: a line for each thing, in the file's order. */
static void number_lines(struct lines *lines)
{
    size_t i, line = 4;

    lines->participants = 1;
    lines->locations = 2;
    lines->edition = 3;
    for (i = 0; i < WZ_LOCATION_PRICES; i++)
        lines->stretches[i] = line++;
    for (i = 0; i < ROOM; i++)
        lines->rows[i] = line++;
    for (i = 0; i < ROOM; i++)
        lines->transactions[i] = line++;
}

/* The hour in numbers is written, or refused with the line of what was damaged. */
static void check_text(const char *name, struct hour *hour, size_t line)
{
    uint8_t file[WZ_LONGEST_FILE];
    char place[PLACE_LEN];
    size_t told = 0;

    hour->refusal = write_exercise(&hour->exercise, file, &hour->len);
    cases++;
    if (hour->refusal == WZ_OK)
        return;
    refused++;
    find_place(hour, hour->refusal, place);
    if (sscanf(place, "line %zu: ", &told) != 1 || told != line)
        is_wrong(name, "not its line", line, place);
}

/* Tries numbers in the place of one in a list. */
static void damage_number(const char *name, struct hour *hour, uint8_t *list, size_t i,
                          size_t line)
{
    static const int64_t tried[] = {INT64_MIN, -5000001, -1, 0,       1,        2,        4,
                                    6,         12,       64, 5000001, 20000001, INT64_MAX};
    int64_t kept = wz_get(list, i);
    size_t t;

    for (t = 0; t < sizeof tried / sizeof *tried; t++) {
        wz_put(list, i, tried[t]);
        check_text(name, hour, line);
    }
    wz_put(list, i, kept);
}

static void damage_counts(const char *name, struct hour *hour)
{
    struct exercise *exercise = &hour->exercise;
    int64_t participants = exercise->participants, locations = exercise->locations;
    int64_t edition = exercise->edition;

    exercise->participants = 65;
    check_text(name, hour, hour->lines.participants);
    exercise->participants = participants;
    exercise->locations = 0;
    check_text(name, hour, hour->lines.locations);
    exercise->locations = locations;
    exercise->edition = 2;
    check_text(name, hour, hour->lines.edition);
    exercise->edition = INT64_MIN;
    check_text(name, hour, hour->lines.edition);
    exercise->edition = edition;
}

/* Damages each number of rows or transactions; their lines are given. */
static void damage_entries(const char *name, struct hour *hour, struct entries *entries,
                           const size_t *lines)
{
    size_t i;

    for (i = 0; i < entries->width * entries->count; i++)
        damage_number(name, hour, entries->numbers, i, lines[i / entries->width]);
}

static void damage_text(const char *name, const uint8_t *file, size_t len)
{
    static struct hour hour;
    struct exercise *exercise = &hour.exercise;
    size_t i;

    if (read_exercise(file, len, exercise) != WZ_OK || len > 2000)
        return;
    hour.name = name;
    hour.is_text = 1;
    hour.file = file;
    number_lines(&hour.lines);
    damage_counts(name, &hour);
    for (i = 0; i < WZ_LOCATION_PRICES * (size_t)exercise->locations; i++)
        damage_number(name, &hour, exercise->prices, i,
                      hour.lines.stretches[i / (size_t)exercise->locations]);
    damage_entries(name, &hour, &exercise->rows, hour.lines.rows);
    damage_entries(name, &hour, &exercise->transactions, hour.lines.transactions);
}

int main(int argc, char **argv)
{
    static uint8_t file[100000];
    char path[1000];
    size_t len;
    int i;

    for (i = 1; i < argc; i++) {
        snprintf(path, sizeof path, "%s.exercise", argv[i]);
        if (!read_file(path, file, sizeof file - 1, &len))
            return 2;
        damage_file(argv[i], file, len, is_exercise_file(file, len));
        damage_text(argv[i], file, len);
    }
    fprintf(stderr, "%zu cases, %zu refused, %zu wrong\n", cases, refused, wrong);
    return wrong > 0 || refused < 1000;
}
