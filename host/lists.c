#include "lists.h"

#include <errno.h>
#include <inttypes.h>
#include <string.h>

size_t count_of(const struct list *list)
{
    return list->len / WZ_NUMBER;
}

void add_number(struct list *list, int64_t number)
{
    if (count_of(list) == MOST_NUMBERS)
        return;
    wz_put(list->bytes, count_of(list), number);
    list->len += WZ_NUMBER;
}

void add_list(struct list *list, const struct list *more)
{
    size_t i;

    for (i = 0; i < count_of(more); i++)
        add_number(list, wz_get(more->bytes, i));
}

const char *read_number(const char *word, int64_t *number)
{
    const char *digits = word + (*word == '-');
    intmax_t value;

    if (strchr(word, ','))
        return NO_COMMAS;
    if (*digits == '\0' || digits[strspn(digits, "0123456789")] != '\0')
        return "not a whole number; write digits alone, with a - before them below 0";
    errno = 0;
    value = strtoimax(word, NULL, 10);
    if (errno == ERANGE || value < INT64_MIN || value > INT64_MAX)
        return "beyond 64 bits; numbers go from -9223372036854775808 to 9223372036854775807";
    *number = value;
    return NULL;
}
