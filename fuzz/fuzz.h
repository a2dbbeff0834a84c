/*
 * What the targets share: lists lent at the edge of a page, the engine held
 * against the judge, and numbers and lists made from the fuzzer's bytes.
 */
#ifndef FUZZ_H
#define FUZZ_H

#include <stddef.h>
#include <stdint.h>

#define MOST_LIST_BYTES 131072 /* whole pages, also where these are large */

/* A list of a call. */
struct list {
    const char *name;
    size_t len;
    uint8_t before[MOST_LIST_BYTES]; /* what it holds at the call */
    uint8_t after[MOST_LIST_BYTES];  /* what the judge makes of it */
    uint8_t *pages;                  /* MOST_LIST_BYTES between pages out of bounds */
    uint8_t *lent;                   /* the pointer for the call */
};

/* The two arguments that lend a list. */
#define LENT(list) (list).lent, (list).len

/* What a call is given: a list, or else a number. */
struct field {
    const struct list *list;
    const int64_t *number;
};

/* A call and what must answer the same; both lend the lists and do nothing else. */
struct call {
    const char *name;
    struct list *list;
    size_t lists, outputs; /* the last of the lists are written */
    uint32_t (*engine)(const struct list *);
    uint32_t (*judge)(const struct list *);
    const struct field *given; /* in the order of a case of the tests */
    size_t fields;
};
#define COUNT(array) (sizeof(array) / sizeof *(array))

/*
 * Makes the call twice, each list once ending and once beginning where its
 * pages do, and the second time NULL for an empty one. Ends the program where
 * the answer or a byte of any list isn't the judge's, and gives that answer.
 * The answers are counted, and the counts printed as the program ends. Where
 * the environment has PRINT_CASE the call is printed first, as a line of a case
 * file of the tests.
 */
uint32_t hold_to_judge(const struct call *call);

/* These give 1 where the answer, or a list, is what is wanted, else print it and give 0. */
int answers(const char *name, uint32_t answer, uint32_t wanted);
int is_same(const char *name, const uint8_t *bytes, const uint8_t *wanted, size_t len);

/* Bytes of the fuzzer's that a call is made from, and the numbers made so far. */
struct source {
    const uint8_t *bytes;
    size_t left;
    int64_t made[256];
    size_t count;
};

/* The next byte; 0 where there are no more. */
uint8_t take(struct source *source);

/* A number from low to high, often a limit or an earlier one, seldom beyond. */
int64_t take_number(struct source *source, int64_t low, int64_t high);

/* A number from 0 to count less 1, seldom another. */
int64_t take_choice(struct source *source, int64_t count);

/* Gives the list so many numbers, or few that then come again and again. */
void take_list(struct source *source, struct list *list, size_t count, int64_t low, int64_t high);

/* How many numbers a list that repeats itself has of its own. */
size_t take_period(struct source *source, size_t count);

/* Gives the list a length and bytes that no call writes by chance. */
void fill(struct list *list, size_t len);

/* A list that is too long, too short or ragged; mostly nothing. */
struct fault {
    uint8_t whether, what;
};
struct fault take_fault(struct source *source);
void spoil_length(struct fault fault, struct list *list, size_t lists);

int64_t number_at(const struct list *list, size_t i);
void put_at(struct list *list, size_t i, int64_t number);

#endif
