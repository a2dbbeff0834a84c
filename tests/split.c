/*
 * Checks wz_split against the cases on standard input: amount, shares, parts
 * before, number, parts after.
 */
#include "harness.h"
#include "wunzelihle.h"

static void read_lists(char **field, struct list *list)
{
    list[0] = input("shares", field[1]);
    list[1] = output("parts", field[2], field[4]);
}

static uint64_t enter(const struct given *given)
{
    return wz_split(given->number[0], LENT(given->list[0]), LENT(given->list[1]));
}

static int call(char **field, const struct list *list)
{
    struct given given = {{number_of(field[0])}, list};

    return answers("wz_split", make_call(enter, &given), number_of(field[3]));
}

int main(int argc, char **argv)
{
    static const struct test split = {5, 2, read_lists, call};

    return run_cases(&split, argc, argv);
}
