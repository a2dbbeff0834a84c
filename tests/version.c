/*
 * Checks wz_version against the case on standard input: number.
 */
#include "harness.h"
#include "wunzelihle.h"

static void read_lists(char **field, struct list *list)
{
    (void)field;
    (void)list;
}

static uint64_t enter(const struct given *given)
{
    (void)given;
    return wz_version();
}

static int call(char **field, const struct list *list)
{
    struct given given = {{0}, list};

    return answers("wz_version", make_call(enter, &given), number_of(field[0]));
}

int main(int argc, char **argv)
{
    static const struct test version = {1, 0, read_lists, call};

    return run_cases(&version, argc, argv);
}
