/*
 * Checks wz_counts against the cases on standard input: file, counts before,
 * number, counts after, where the edition is the last.
 */
#include "harness.h"
#include "wunzelihle.h"

static void read_lists(char **field, struct list *list)
{
    list[0] = input("file", field[0]);
    list[1] = output("counts", field[1], field[3]);
}

static uint64_t enter(const struct given *given)
{
    return wz_counts(LENT(given->list[0]), LENT(given->list[1]));
}

static int call(char **field, const struct list *list)
{
    struct given given = {{0}, list};

    return answers("wz_counts", make_call(enter, &given), number_of(field[2]));
}

int main(int argc, char **argv)
{
    static const struct test counts = {4, 2, read_lists, call};

    return run_cases(&counts, argc, argv);
}
