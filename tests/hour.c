/*
 * Checks wz_settle_hour against the cases on standard input: file, congestion
 * before, loss before, credit before, net before, number, and the four lists
 * after.
 */
#include "harness.h"
#include "wunzelihle.h"

static void read_lists(char **field, struct list *list)
{
    list[0] = input("file", field[0]);
    list[1] = output("congestion", field[1], field[6]);
    list[2] = output("loss", field[2], field[7]);
    list[3] = output("credit", field[3], field[8]);
    list[4] = output("net", field[4], field[9]);
}

static uint64_t enter(const struct given *given)
{
    const struct list *list = given->list;

    return wz_settle_hour(LENT(list[0]), LENT(list[1]), LENT(list[2]), LENT(list[3]),
                          LENT(list[4]));
}

static int call(char **field, const struct list *list)
{
    struct given given = {{0}, list};

    return answers("wz_settle_hour", make_call(enter, &given), number_of(field[5]));
}

int main(int argc, char **argv)
{
    static const struct test hour = {10, 5, read_lists, call};

    return run_cases(&hour, argc, argv);
}
