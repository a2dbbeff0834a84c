/*
 * Lists of numbers for the engine's calls, and numbers as people write them.
 */
#ifndef LISTS_H
#define LISTS_H

#include "wunzelihle.h"

/*
 * A list for a call. There is room for one number more than the longest list
 * that a call takes, the parts of all areas at all buses; what comes after that
 * is left out, since a list so long is refused by its length either way.
 */
#define MOST_NUMBERS (WZ_MOST_AREAS * WZ_MOST_BUSES + 1)

struct list {
    size_t len; /* in bytes */
    uint8_t bytes[WZ_NUMBER * MOST_NUMBERS];
};

/* How many numbers a list has. */
size_t count_of(const struct list *list);

/* Adds a number, or all numbers of another list, at a list's end. */
void add_number(struct list *list, int64_t number);
void add_list(struct list *list, const struct list *more);

/* What is wrong with a number that has commas. */
#define NO_COMMAS "no commas in numbers"

/*
 * Reads a whole number of 64 bits: digits, and a sign where it is below 0.
 * Gives NULL, or why it is none.
 */
const char *read_number(const char *word, int64_t *number);

#endif
