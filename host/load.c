#include "load.h"

#include "place.h"
#include "refusals.h"

#include <inttypes.h>
#include <stdio.h>

/* The two arguments that lend a list. */
#define LENT(list) (list).bytes, (list).len

enum column { PARTICIPANT_COLUMN, BUS_COLUMN, KW_COLUMN, COLUMNS };

static const char *const columns[COLUMNS] = {
    [PARTICIPANT_COLUMN] = "participant", [BUS_COLUMN] = "bus", [KW_COLUMN] = "kw"};

/* ---- the call */

/* The buses that there is room for; loads of more are refused. */
static size_t buses_of(const struct assignment *given)
{
    size_t buses = count_of(&given->loads);

    return buses < WZ_MOST_BUSES ? buses : WZ_MOST_BUSES;
}

uint32_t assign(const struct assignment *given, struct assigned *assigned)
{
    assigned->buses = buses_of(given);
    return wz_assign_load(given->metered, given->distributor, LENT(given->loads),
                          LENT(given->imports), LENT(given->generation), given->areas,
                          LENT(given->area_parts), LENT(given->contracts), LENT(given->tranches),
                          assigned->kw, WZ_NUMBER * WZ_MOST_PARTICIPANTS * assigned->buses);
}

/* ---- what is assigned */

static int64_t kw_of(const struct assigned *assigned, size_t participant, size_t bus)
{
    return wz_get(assigned->kw, participant * assigned->buses + bus);
}

static int64_t total_at(const struct assigned *assigned, size_t bus)
{
    int64_t total = 0;
    size_t p;

    for (p = 0; p < WZ_MOST_PARTICIPANTS; p++)
        total += kw_of(assigned, p, bus);
    return total;
}

static int has_load(const struct assigned *assigned, size_t participant)
{
    size_t b;

    for (b = 0; b < assigned->buses; b++) {
        if (kw_of(assigned, participant, b) != 0)
            return 1;
    }
    return 0;
}

static void print_lines(const struct assigned *assigned)
{
    size_t p, b;

    for (p = 0; p < WZ_MOST_PARTICIPANTS; p++) {
        if (!has_load(assigned, p))
            continue;
        printf("%zu", p);
        for (b = 0; b < assigned->buses; b++)
            printf(" %" PRId64, kw_of(assigned, p, b));
        putchar('\n');
    }
    fputs("total", stdout);
    for (b = 0; b < assigned->buses; b++)
        printf(" %" PRId64, total_at(assigned, b));
    putchar('\n');
}

/* Ends a line of the table with a bus and its kW. */
static void print_bus(struct answer *answer, size_t bus, int64_t kw)
{
    put_number(answer, BUS_COLUMN, (int64_t)bus);
    put_number(answer, KW_COLUMN, kw);
    end_line(answer);
}

static void print_table(struct answer *answer, const struct assigned *assigned)
{
    size_t p, b;

    for (p = 0; p < WZ_MOST_PARTICIPANTS; p++) {
        for (b = 0; b < assigned->buses && has_load(assigned, p); b++) {
            put_number(answer, PARTICIPANT_COLUMN, (int64_t)p);
            print_bus(answer, b, kw_of(assigned, p, b));
        }
    }
    for (b = 0; b < assigned->buses; b++) {
        put_text(answer, PARTICIPANT_COLUMN, "total");
        print_bus(answer, b, total_at(assigned, b));
    }
}

/* ---- the command */

enum status assign_load(struct job *job, const char *name)
{
    struct assignment given;
    struct load_lines lines;
    struct assigned assigned;
    char place[PLACE_LEN];
    uint32_t refusal;

    set_columns(&job->answer, columns, COLUMNS);
    if (!read_assignment(name, &given, &lines))
        return STATUS_FAULT;
    refusal = assign(&given, &assigned);
    if (refusal != WZ_OK) {
        find_load_place(&given, &lines, refusal, place, sizeof place);
        return refuse(&job->answer, name, refusal, place);
    }
    if (job->answer.format != PLAIN) {
        print_table(&job->answer, &assigned);
        return STATUS_DONE;
    }
    begin_plain(&job->answer);
    print_lines(&assigned);
    return STATUS_DONE;
}
