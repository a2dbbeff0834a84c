/*
 * Checks wz_participants against the cases on standard input: file, number.
 */
#include "harness.h"
#include "wunzelihle.h"

static void read_lists(char **field, struct list *list)
{
    list[0] = input("file", field[0]);
}

static uint64_t enter(const struct given *given)
{
    return wz_participants(LENT(given->list[0]));
}

static int call(char **field, const struct list *list)
{
    struct given given = {{0}, list};

    return answers("wz_participants", make_call(enter, &given), number_of(field[1]));
}

int main(int argc, char **argv)
{
    static const struct test participants = {2, 1, read_lists, call};

    return run_cases(&participants, argc, argv);
}
