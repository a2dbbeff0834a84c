#include "check.h"

#include "refusals.h"
#include "statement.h"

#include <inttypes.h>
#include <stdio.h>

enum column {
    FORM_COLUMN,
    BYTES_COLUMN,
    PARTICIPANTS_COLUMN,
    LOCATIONS_COLUMN,
    ROWS_COLUMN,
    TRANSACTIONS_COLUMN,
    EDITION_COLUMN,
    COLUMNS
};

static const char *const columns[COLUMNS] = {
    [FORM_COLUMN] = "form",
    [BYTES_COLUMN] = "bytes",
    [PARTICIPANTS_COLUMN] = "participants",
    [LOCATIONS_COLUMN] = "locations",
    [ROWS_COLUMN] = "rows",
    [TRANSACTIONS_COLUMN] = "transactions",
    [EDITION_COLUMN] = "edition",
};

static const char *form_of(const struct hour *hour)
{
    return hour->is_text ? "text" : "exercise file";
}

/* Prints how many there are, and their names where there are any. */
static void print_named(const struct names *names, enum named named, int64_t count)
{
    char label[LABEL_LEN];
    int64_t i;

    printf("%-14s%" PRId64, columns[named == PARTICIPANT ? PARTICIPANTS_COLUMN : LOCATIONS_COLUMN],
           count);
    for (i = 0; has_names(names, named) && i < count; i++) {
        write_label(label, names, named, i, 0);
        printf("%s%s", i == 0 ? ": " : ", ", label);
    }
    putchar('\n');
}

static void print_counts(const struct hour *hour, const struct exercise *exercise)
{
    puts("can be settled");
    printf("%-14s%s\n", columns[FORM_COLUMN], form_of(hour));
    printf("%-14s%zu%s\n", columns[BYTES_COLUMN], hour->len,
           hour->is_text ? " of the exercise file that it makes" : "");
    print_named(&hour->names, PARTICIPANT, exercise->participants);
    print_named(&hour->names, LOCATION, exercise->locations);
    printf("%-14s%zu\n", columns[ROWS_COLUMN], exercise->rows.count);
    printf("%-14s%zu\n", columns[TRANSACTIONS_COLUMN], exercise->transactions.count);
    printf("%-14s%" PRId64 "\n", columns[EDITION_COLUMN], exercise->edition);
}

static void print_table(struct answer *answer, const struct hour *hour,
                        const struct exercise *exercise)
{
    put_text(answer, FORM_COLUMN, form_of(hour));
    put_number(answer, BYTES_COLUMN, (int64_t)hour->len);
    put_number(answer, PARTICIPANTS_COLUMN, exercise->participants);
    put_number(answer, LOCATIONS_COLUMN, exercise->locations);
    put_number(answer, ROWS_COLUMN, (int64_t)exercise->rows.count);
    put_number(answer, TRANSACTIONS_COLUMN, (int64_t)exercise->transactions.count);
    put_number(answer, EDITION_COLUMN, exercise->edition);
    end_line(answer);
}

enum status check_hour(struct job *job, const char *name)
{
    struct hour hour;
    struct statement statement;
    struct exercise exercise;
    uint32_t refusal;

    set_columns(&job->answer, columns, COLUMNS);
    if (!read_hour(job, name, &hour))
        return STATUS_FAULT;
    refusal = settle(&hour, &statement);
    if (refusal != WZ_OK)
        return refuse_hour(&job->answer, &hour, refusal);
    read_exercise(hour.file, hour.len, &exercise);
    if (job->answer.format != PLAIN) {
        print_table(&job->answer, &hour, &exercise);
        return STATUS_DONE;
    }
    begin_plain(&job->answer);
    print_counts(&hour, &exercise);
    return STATUS_DONE;
}
