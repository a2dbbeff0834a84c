/*
 * Checks wz_assign_load against the cases on standard input: metered,
 * distributor, loads, imports, generation, areas, area parts, contracts,
 * tranches, out before, number, out after.
 */
#include "harness.h"
#include "wunzelihle.h"

static void read_lists(char **field, struct list *list)
{
    list[0] = input("loads", field[2]);
    list[1] = input("imports", field[3]);
    list[2] = input("generation", field[4]);
    list[3] = input("area parts", field[6]);
    list[4] = input("contracts", field[7]);
    list[5] = input("tranches", field[8]);
    list[6] = output("out", field[9], field[11]);
}

static uint64_t enter(const struct given *given)
{
    const int64_t *number = given->number;
    const struct list *list = given->list;

    return wz_assign_load(number[0], number[1], LENT(list[0]), LENT(list[1]), LENT(list[2]),
                          number[2], LENT(list[3]), LENT(list[4]), LENT(list[5]), LENT(list[6]));
}

static int call(char **field, const struct list *list)
{
    struct given given = {{number_of(field[0]), number_of(field[1]), number_of(field[5])}, list};

    return answers("wz_assign_load", make_call(enter, &given), number_of(field[10]));
}

int main(int argc, char **argv)
{
    static const struct test load = {12, 7, read_lists, call};

    return run_cases(&load, argc, argv);
}
