#include "statement.h"

#include "refusals.h"

const char *const figure_word[FIGURES] = {
    [CONGESTION] = "congestion", [LOSS] = "loss", [CREDIT] = "credit", [NET] = "net"};

/* ---- settled */

/* Takes a figure of every participant from its list. In an accepted hour its total fits. */
static void take_figure(struct statement *statement, size_t figure, const uint8_t *list)
{
    int64_t total = 0;
    size_t p;

    for (p = 0; p < statement->participants; p++) {
        statement->of[p][figure] = wz_get(list, p);
        total += statement->of[p][figure];
    }
    statement->total[figure] = total;
}

uint32_t settle(const struct hour *hour, struct statement *statement)
{
    uint8_t list[FIGURES][WZ_NUMBER * WZ_MOST_PARTICIPANTS];
    size_t participants = wz_participants(hour->file, hour->len);
    size_t len = WZ_NUMBER * participants, f;
    uint32_t refusal = hour->refusal;

    if (refusal == WZ_OK)
        refusal = wz_settle_hour(hour->file, hour->len, list[CONGESTION], len, list[LOSS], len,
                                 list[CREDIT], len, list[NET], len);
    if (refusal != WZ_OK)
        return refusal;
    statement->participants = participants;
    for (f = 0; f < FIGURES; f++)
        take_figure(statement, f, list[f]);
    return WZ_OK;
}

/* ---- as a table */

/* The columns; document 01's statement has no names. */
enum column { PARTICIPANT_COLUMN, NAME_COLUMN, FIGURE_COLUMNS };

static const char *const settled_columns[] = {"participant", "name",   "congestion",
                                              "loss",        "credit", "net"};
static const char *const statement_columns[] = {"participant", "congestion", "loss", "credit",
                                                "net"};

/* Prints a line of the table; `column` is the first of figures. */
static void print_figures(struct answer *answer, const int64_t *figures, size_t column,
                          void (*put)(struct answer *, size_t, int64_t))
{
    size_t f;

    for (f = 0; f < FIGURES; f++)
        put(answer, column + f, figures[f]);
    end_line(answer);
}

static void print_statement_table(struct answer *answer, const struct statement *statement)
{
    size_t p;

    for (p = 0; p < statement->participants; p++) {
        put_number(answer, PARTICIPANT_COLUMN, (int64_t)p);
        print_figures(answer, statement->of[p], NAME_COLUMN, put_number);
    }
    put_text(answer, PARTICIPANT_COLUMN, "total");
    print_figures(answer, statement->total, NAME_COLUMN, put_number);
}

static void print_settled_table(struct answer *answer, const struct statement *statement,
                                const struct names *names)
{
    size_t p;

    for (p = 0; p < statement->participants; p++) {
        put_number(answer, PARTICIPANT_COLUMN, (int64_t)p);
        put_text(answer, NAME_COLUMN, name_of(names, PARTICIPANT, (int64_t)p));
        print_figures(answer, statement->of[p], FIGURE_COLUMNS, put_dollars);
    }
    put_text(answer, PARTICIPANT_COLUMN, "total");
    print_figures(answer, statement->total, FIGURE_COLUMNS, put_dollars);
}

/* ---- the commands */

/* Reads and settles the hour. Gives STATUS_DONE, or has said why it can't. */
static enum status settle_file(struct job *job, const char *name, struct hour *hour,
                               struct statement *statement)
{
    uint32_t refusal;

    if (!read_hour(job, name, hour))
        return STATUS_FAULT;
    refusal = settle(hour, statement);
    return refusal == WZ_OK ? STATUS_DONE : refuse_hour(&job->answer, hour, refusal);
}

enum status print_statement(struct job *job, const char *name)
{
    struct hour hour;
    struct statement statement;
    enum status status;

    set_columns(&job->answer, statement_columns,
                sizeof statement_columns / sizeof *statement_columns);
    status = settle_file(job, name, &hour, &statement);
    if (status != STATUS_DONE)
        return status;
    if (job->answer.format != PLAIN) {
        print_statement_table(&job->answer, &statement);
        return status;
    }
    begin_plain(&job->answer);
    print_cents(&statement);
    return status;
}

enum status print_settled(struct job *job, const char *name)
{
    struct hour hour;
    struct statement statement;
    enum status status;

    set_columns(&job->answer, settled_columns, sizeof settled_columns / sizeof *settled_columns);
    status = settle_file(job, name, &hour, &statement);
    if (status != STATUS_DONE)
        return status;
    if (job->answer.format != PLAIN) {
        print_settled_table(&job->answer, &statement, &hour.names);
        return status;
    }
    begin_plain(&job->answer);
    print_dollars(&statement, &hour.names);
    return status;
}
