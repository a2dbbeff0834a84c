/*
 * Checks the check of a file and the reader of its rows against the cases on
 * standard input: file, number, the stretch of the rows.
 */
#include "harness.h"
#include "probe.h"

#include <stdio.h>
#include <stdlib.h>

static void read_lists(char **field, struct list *list)
{
    struct list rows = input("rows", field[2]);
    char before[32] = "";

    if (rows.len != 0)
        sprintf(before, "a7{%zu}", rows.len);
    free(rows.before);
    list[0] = input("file", field[0]);
    list[1] = output("rows", before, field[2]);
}

static int call(char **field, const struct list *list)
{
    uint32_t number = probe_check(LENT(list[0]));
    uint64_t length = probe_rows(LENT(list[0]), LENT(list[1]));

    return answers("probe_check", number, number_of(field[1])) &
           answers("probe_rows", length, (int64_t)list[1].len);
}

int main(int argc, char **argv)
{
    static const struct test check = {3, 2, read_lists, call};

    return run_cases(&check, argc, argv);
}
