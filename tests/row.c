/*
 * Checks the decoding of one row against the cases on standard input:
 * participants, locations, the row's bytes, number, and market, kind, interval,
 * participant, location and kW parted by spaces, or - where it is refused.
 */
#include "harness.h"
#include "probe.h"

#include <stdio.h>
#include <stdlib.h>
#include <string.h>

#define FIELDS 6
#define BEFORE "a7{48}"

/* The list of the numbers in a field, as a case file has it. */
static void write_list(char *list, const char *field)
{
    size_t i, k;

    for (i = 0; i < FIELDS; i++) {
        char *end;
        unsigned long long number = strtoull(field, &end, 10);

        if (end == field || *end != (i + 1 < FIELDS ? ' ' : '\0'))
            leave("six numbers or - are expected");
        field = end + 1;
        for (k = 0; k < 8; k++, list += 2)
            sprintf(list, "%02x", (unsigned)(number >> 8 * k & 0xff));
    }
}

static void read_lists(char **field, struct list *list)
{
    char after[16 * FIELDS + 1] = BEFORE;

    if (strcmp(field[4], "-") != 0)
        write_list(after, field[4]);
    list[0] = input("row", field[2]);
    list[1] = output("fields", BEFORE, after);
}

static int call(char **field, const struct list *list)
{
    uint32_t answer =
        probe_row(number_of(field[0]), number_of(field[1]), LENT(list[0]), LENT(list[1]));

    return answers("probe_row", answer, number_of(field[3]));
}

int main(int argc, char **argv)
{
    static const struct test row = {5, 2, read_lists, call};

    return run_cases(&row, argc, argv);
}
