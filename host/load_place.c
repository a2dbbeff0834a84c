/*
 * Which line of a load assignment is refused. The engine is asked again, for
 * each line in the order of its tests, with that line alone and all others made
 * harmless; the first that gets the same refusal is the one. What a number may
 * be is the engine's to know.
 */
#include "load.h"

#include <inttypes.h>
#include <stdio.h>
#include <string.h>

/* What is asked: the assignment, of which lines are tried, and how it is refused. */
struct trial {
    const struct assignment *given;
    uint32_t refusal;
    struct assignment tried;
};

/* ---- assignments of a line alone */

static void set_zeros(struct list *list, size_t count)
{
    list->len = 0;
    while (count-- > 0)
        add_number(list, 0);
}

/* Makes everything harmless: as many buses, and nothing else. */
static void make_harmless(struct trial *trial)
{
    struct assignment *tried = &trial->tried;

    tried->metered = tried->distributor = tried->areas = 0;
    set_zeros(&tried->loads, count_of(&trial->given->loads));
    tried->imports.len = tried->generation.len = tried->area_parts.len = tried->contracts.len = 0;
    set_zeros(&tried->tranches, WZ_MOST_PARTICIPANTS);
}

static int is_refused_so(const struct trial *trial)
{
    struct assigned assigned;

    return assign(&trial->tried, &assigned) == trial->refusal;
}

/* Keeps one number of a list, and makes the others 0. */
static void keep_number(struct list *list, const struct list *given, size_t number)
{
    set_zeros(list, count_of(given));
    wz_put(list->bytes, number, wz_get(given->bytes, number));
}

/* ---- lines */

/* What was found: a line, and of a line of many numbers which of them. */
struct found {
    enum load_line kind;
    size_t line;
    int has_number;
    size_t number;
    int64_t value;
};

/* Tries each number of a list by itself. */
static int find_number(struct trial *trial, struct list *list, const struct list *given,
                       struct found *found)
{
    size_t i;

    make_harmless(trial);
    for (i = 0; i < count_of(given); i++) {
        keep_number(list, given, i);
        if (is_refused_so(trial)) {
            found->has_number = 1;
            found->number = i;
            found->value = wz_get(given->bytes, i);
            return 1;
        }
    }
    return 0;
}

/* Copies the numbers of one area, or of one contract. */
static void copy_numbers(struct list *list, const struct list *given, size_t first, size_t count)
{
    size_t i;

    list->len = 0;
    for (i = 0; i < count; i++)
        add_number(list, wz_get(given->bytes, first + i));
}

static int find_area(struct trial *trial, const struct load_lines *lines, struct found *found)
{
    size_t buses = count_of(&trial->given->loads), a;

    for (a = 0; a < (size_t)trial->given->areas; a++) {
        make_harmless(trial);
        trial->tried.areas = 1;
        copy_numbers(&trial->tried.area_parts, &trial->given->area_parts, a * buses, buses);
        found->line = lines->areas[a];
        if (is_refused_so(trial))
            return 1;
    }
    return 0;
}

/* A contract stands with all areas; these are harmless, or had been found before. */
static int find_contract(struct trial *trial, const struct load_lines *lines, struct found *found)
{
    const struct list *contracts = &trial->given->contracts;
    size_t c;

    for (c = 0; c < count_of(contracts) / WZ_CONTRACT_NUMBERS; c++) {
        make_harmless(trial);
        trial->tried.areas = trial->given->areas;
        trial->tried.area_parts = trial->given->area_parts;
        copy_numbers(&trial->tried.contracts, contracts, WZ_CONTRACT_NUMBERS * c, WZ_CONTRACT_NUMBERS);
        found->line = lines->contracts[c];
        if (is_refused_so(trial))
            return 1;
    }
    return 0;
}

static int find_tranche(struct trial *trial, const struct load_lines *lines, struct found *found)
{
    if (!find_number(trial, &trial->tried.tranches, &trial->given->tranches, found))
        return 0;
    found->line = lines->tranches[found->number];
    found->has_number = 0;
    return 1;
}

/* Tries the lines of a kind. */
static int find_line(struct trial *trial, const struct load_lines *lines, struct found *found)
{
    struct assignment *tried = &trial->tried;
    const struct assignment *given = trial->given;

    make_harmless(trial);
    found->has_number = 0;
    found->line = lines->of[found->kind];
    switch (found->kind) {
    case METERED_LINE:
        tried->metered = given->metered;
        return is_refused_so(trial);
    case DISTRIBUTOR_LINE:
        tried->distributor = given->distributor;
        return is_refused_so(trial);
    case LOADS_LINE:
        return find_number(trial, &tried->loads, &given->loads, found);
    case IMPORTS_LINE:
        return find_number(trial, &tried->imports, &given->imports, found);
    case GENERATION_LINE:
        return find_number(trial, &tried->generation, &given->generation, found);
    case AREA_LINE:
        return find_area(trial, lines, found);
    case CONTRACT_LINE:
        return find_contract(trial, lines, found);
    case TRANCHE_LINE:
        return find_tranche(trial, lines, found);
    case LOAD_LINES:
        break;
    }
    return 0;
}

/* ---- the whole */

static int64_t sum_of(const struct list *list)
{
    int64_t sum = 0;
    size_t i;

    for (i = 0; i < count_of(list); i++)
        sum += wz_get(list->bytes, i);
    return sum;
}

/* Adds how many there are of something; of a list that is full there may be more. */
static void add_count(char place[], size_t room, size_t count, int is_full, const char *of)
{
    size_t len = strlen(place);

    snprintf(place + len, room - len, "%s%s%zu %s%s", len > 0 ? ", " : "",
             is_full ? "at least " : "", count, of, plural(count));
}

static void add_count_of(char place[], size_t room, const struct list *list, size_t numbers,
                         const char *of)
{
    add_count(place, room, count_of(list) / numbers, count_of(list) == MOST_NUMBERS, of);
}

static void write_counts(const struct assignment *given, char place[], size_t room)
{
    add_count_of(place, room, &given->loads, 1, "load");
    add_count_of(place, room, &given->imports, 1, "import");
    add_count_of(place, room, &given->generation, 1, "generator");
    add_count(place, room, (size_t)given->areas, 0, "area");
    add_count_of(place, room, &given->contracts, WZ_CONTRACT_NUMBERS, "contract");
}

/* What to look at where no line by itself is refused. */
static void write_what_to_look_at(const struct assignment *given, uint32_t refusal, char place[],
                                  size_t room)
{
    place[0] = '\0';
    if (refusal == WZ_LENGTH)
        write_counts(given, place, room);
    else if (refusal == WZ_METERED_LOAD || refusal == WZ_NO_SHARES)
        snprintf(place, room, "imports and generation total %" PRId64 " kW",
                 sum_of(&given->imports) + sum_of(&given->generation));
    else if (refusal == WZ_CONTRACTS)
        snprintf(place, room, "look at the kW of the lines 'contract', and at their areas");
}

/* Whether the engine shows a line of such a refusal. */
static int is_of_a_line(uint32_t refusal)
{
    return refusal == WZ_RANGE || refusal == WZ_IDENTITY || refusal == WZ_AREA_PARTS;
}

void find_load_place(const struct assignment *given, const struct load_lines *lines,
                     uint32_t refusal, char place[], size_t room)
{
    struct trial trial = {.given = given, .refusal = refusal};
    struct found found;

    write_what_to_look_at(given, refusal, place, room);
    if (!is_of_a_line(refusal))
        return;
    for (found.kind = METERED_LINE; found.kind < LOAD_LINES; found.kind++) {
        if (!find_line(&trial, lines, &found))
            continue;
        if (found.has_number)
            snprintf(place, room, "line %zu: %s, number %zu: %" PRId64, found.line,
                     load_word(found.kind), found.number, found.value);
        else
            snprintf(place, room, "line %zu: %s", found.line, load_word(found.kind));
        return;
    }
}
