#include "statement.h"

#include <inttypes.h>
#include <stdio.h>

static void print_figures(const int64_t *figure)
{
    size_t f;

    for (f = 0; f < FIGURES; f++)
        printf(" %" PRId64, figure[f]);
    putchar('\n');
}

void print_cents(const struct statement *statement)
{
    size_t p;

    for (p = 0; p < statement->participants; p++) {
        printf("%zu", p);
        print_figures(statement->of[p]);
    }
    fputs("total", stdout);
    print_figures(statement->total);
}
