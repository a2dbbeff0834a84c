#include "assignment.h"

#include "text.h"

#include <string.h>

#define ANY SIZE_MAX

static const struct {
    const char *word;
    size_t numbers; /* that follow the word */
    int once;       /* it stands exactly once */
    const char *form;
} kinds[LOAD_LINES] = {
    [METERED_LINE] = {"metered", 1, 1, "write 'metered 1', or 'metered 0' where it isn't"},
    [DISTRIBUTOR_LINE] = {"distributor", 1, 1, "write 'distributor PARTICIPANT'"},
    [LOADS_LINE] = {"loads", ANY, 1, "write 'loads KW..', a number for each bus"},
    [IMPORTS_LINE] = {"imports", ANY, 1,
                      "write 'imports KW..', without numbers where there are none"},
    [GENERATION_LINE] = {"generation", ANY, 1,
                         "write 'generation KW..', without numbers where there is none"},
    [AREA_LINE] = {"area", ANY, 0, "write 'area PART..' after the loads, a number for each bus"},
    [CONTRACT_LINE] = {"contract", 3, 0, "write 'contract SUPPLIER AREA KW'"},
    [TRANCHE_LINE] = {"tranche", 2, 0,
                      "write 'tranche PARTICIPANT COUNT', once for each, 0 to 63"},
};

const char *load_word(enum load_line line)
{
    return kinds[line].word;
}

/* What was read of the text. */
struct reading {
    struct assignment *assignment;
    struct load_lines *lines;
};

static int read_numbers(struct text *text, struct list *numbers)
{
    const char *word;

    numbers->len = 0;
    while ((word = next_word(text))) {
        int64_t number;
        const char *why = read_number(word, &number);

        if (why)
            return fault(text, word, why);
        add_number(numbers, number);
    }
    return 1;
}

/*
 * An area has a part for each bus. Laid end to end, areas with parts too few
 * and too many would pass for others.
 */
static int take_area(struct reading *reading, const struct list *parts, size_t line)
{
    struct assignment *assignment = reading->assignment;

    if (parts->len != assignment->loads.len)
        return 0;
    if (assignment->areas < MOST_LINES)
        reading->lines->areas[assignment->areas] = line;
    assignment->areas++;
    add_list(&assignment->area_parts, parts);
    return 1;
}

static void take_contract(struct reading *reading, const struct list *numbers, size_t line)
{
    reading->lines->contracts[count_of(&reading->assignment->contracts) / WZ_CONTRACT_NUMBERS] = line;
    add_list(&reading->assignment->contracts, numbers);
}

/* The list of tranches has a place for participants 0 to 63, and for no other. */
static int take_tranche(struct reading *reading, int64_t participant, int64_t count, size_t line)
{
    if (participant < 0 || participant >= WZ_MOST_PARTICIPANTS ||
        reading->lines->tranches[participant] != 0)
        return 0;
    reading->lines->tranches[participant] = line;
    wz_put(reading->assignment->tranches.bytes, (size_t)participant, count);
    return 1;
}

/* Takes the numbers of a line; gives 0 where they aren't in its form. */
static int take(struct reading *reading, enum load_line kind, const struct list *numbers,
                size_t line)
{
    struct assignment *assignment = reading->assignment;

    if (kinds[kind].numbers != ANY && kinds[kind].numbers != count_of(numbers))
        return 0;
    switch (kind) {
    case METERED_LINE:
        assignment->metered = wz_get(numbers->bytes, 0);
        break;
    case DISTRIBUTOR_LINE:
        assignment->distributor = wz_get(numbers->bytes, 0);
        break;
    case LOADS_LINE:
        add_list(&assignment->loads, numbers);
        break;
    case IMPORTS_LINE:
        add_list(&assignment->imports, numbers);
        break;
    case GENERATION_LINE:
        add_list(&assignment->generation, numbers);
        break;
    case AREA_LINE:
        return take_area(reading, numbers, line);
    case CONTRACT_LINE:
        take_contract(reading, numbers, line);
        break;
    case TRANCHE_LINE:
        return take_tranche(reading, wz_get(numbers->bytes, 0), wz_get(numbers->bytes, 1), line);
    case LOAD_LINES:
        return 0;
    }
    return 1;
}

static enum load_line kind_of(const char *word)
{
    enum load_line kind = METERED_LINE;

    while (kind < LOAD_LINES && strcmp(word, kinds[kind].word) != 0)
        kind++;
    return kind;
}

static int take_line(struct text *text, void *into)
{
    struct reading *reading = into;
    struct list numbers;
    const char *word = next_word(text);
    enum load_line kind = kind_of(word);

    if (kind == LOAD_LINES)
        return fault(text, word,
                     "no such line; there are metered, distributor, loads, imports, "
                     "generation, area, contract and tranche");
    if (kinds[kind].once && reading->lines->of[kind] != 0)
        return fault(text, word, "there is such a line already; keep one of them");
    if (!read_numbers(text, &numbers))
        return 0;
    if (!take(reading, kind, &numbers, text->line_number))
        return fault(text, word, kinds[kind].form);
    if (reading->lines->of[kind] == 0)
        reading->lines->of[kind] = text->line_number;
    return 1;
}

/* Gives 0 where a line is missing, and has said which. */
static int is_whole(const struct text *text, const struct load_lines *lines)
{
    enum load_line kind = METERED_LINE;

    while (kind < LOAD_LINES && (!kinds[kind].once || lines->of[kind] != 0))
        kind++;
    return kind == LOAD_LINES || missing(text, kinds[kind].word, kinds[kind].form);
}

static void clear(struct assignment *assignment)
{
    size_t p;

    memset(assignment, 0, sizeof *assignment);
    for (p = 0; p < WZ_MOST_PARTICIPANTS; p++)
        add_number(&assignment->tranches, 0);
}

int read_assignment(const char *name, struct assignment *assignment, struct load_lines *lines)
{
    struct reading reading = {assignment, lines};
    struct text text;

    clear(assignment);
    memset(lines, 0, sizeof *lines);
    return read_text(&text, name, take_line, &reading) && is_whole(&text, lines);
}
