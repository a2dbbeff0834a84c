/*
 * Checks wz_write_file against the cases on standard input: participants,
 * locations, rows, transactions, edition, prices, row list, transaction list,
 * file before, number, file after.
 */
#include "harness.h"
#include "wunzelihle.h"

static void read_lists(char **field, struct list *list)
{
    list[0] = input("prices", field[5]);
    list[1] = input("row list", field[6]);
    list[2] = input("transaction list", field[7]);
    list[3] = output("file", field[8], field[10]);
}

static uint64_t enter(const struct given *given)
{
    const int64_t *number = given->number;
    const struct list *list = given->list;

    return wz_write_file(number[0], number[1], number[2], number[3], number[4], LENT(list[0]),
                         LENT(list[1]), LENT(list[2]), LENT(list[3]));
}

static int call(char **field, const struct list *list)
{
    struct given given = {{number_of(field[0]), number_of(field[1]), number_of(field[2]),
                           number_of(field[3]), number_of(field[4])},
                          list};

    return answers("wz_write_file", make_call(enter, &given), number_of(field[9]));
}

int main(int argc, char **argv)
{
    static const struct test write = {11, 4, read_lists, call};

    return run_cases(&write, argc, argv);
}
