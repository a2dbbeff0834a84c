/*
 * Checks wz_find_list_cause against the cases on standard input: participants,
 * locations, rows, transactions, edition, prices, row list, transaction list,
 * cause before, number, cause after.
 */
#include "harness.h"
#include "wunzelihle.h"

static void read_lists(char **field, struct list *list)
{
    list[0] = input("prices", field[5]);
    list[1] = input("row list", field[6]);
    list[2] = input("transaction list", field[7]);
    list[3] = output("cause", field[8], field[10]);
}

static uint64_t enter(const struct given *given)
{
    const int64_t *number = given->number;
    const struct list *list = given->list;

    return wz_find_list_cause(number[0], number[1], number[2], number[3], number[4],
                              LENT(list[0]), LENT(list[1]), LENT(list[2]), LENT(list[3]));
}

static int call(char **field, const struct list *list)
{
    struct given given = {{number_of(field[0]), number_of(field[1]), number_of(field[2]),
                           number_of(field[3]), number_of(field[4])},
                          list};

    return answers("wz_find_list_cause", make_call(enter, &given), number_of(field[9]));
}

int main(int argc, char **argv)
{
    static const struct test list_cause = {11, 4, read_lists, call};

    return run_cases(&list_cause, argc, argv);
}
