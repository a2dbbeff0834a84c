/*
 * Checks wz_read_file against the cases on standard input: file, prices before,
 * row list before, transaction list before, number, and the three lists after.
 */
#include "harness.h"
#include "wunzelihle.h"

static void read_lists(char **field, struct list *list)
{
    list[0] = input("file", field[0]);
    list[1] = output("prices", field[1], field[5]);
    list[2] = output("row list", field[2], field[6]);
    list[3] = output("transaction list", field[3], field[7]);
}

static uint64_t enter(const struct given *given)
{
    const struct list *list = given->list;

    return wz_read_file(LENT(list[0]), LENT(list[1]), LENT(list[2]), LENT(list[3]));
}

static int call(char **field, const struct list *list)
{
    struct given given = {{0}, list};

    return answers("wz_read_file", make_call(enter, &given), number_of(field[4]));
}

int main(int argc, char **argv)
{
    static const struct test read = {8, 4, read_lists, call};

    return run_cases(&read, argc, argv);
}
