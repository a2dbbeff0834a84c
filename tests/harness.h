/*
 * What the test of every call shares: reading a case file, and lending lists
 * between guard bytes.
 */
#ifndef HARNESS_H
#define HARNESS_H

#include <stddef.h>
#include <stdint.h>

/* A list of a case, to be lent to the call under test. */
struct list {
    const char *name;
    size_t len;
    uint8_t *before; /* what it holds at the call */
    uint8_t *after;  /* what it must hold then */
    uint8_t *block;  /* guard bytes, the copy that is lent, guard bytes */
    size_t block_len;
    uint8_t *copy;
    uint8_t *lent; /* the pointer for the call */
    uint8_t guard;
};

/* The two arguments that lend a list. */
#define LENT(list) (list).lent, (list).len

/* Ends the program, since the case at hand can't be read. */
void leave(const char *why);

/*
 * The number of a field, a list that is only read, and a list that the call
 * writes to. They leave where there is none.
 */
int64_t number_of(const char *field);
struct list input(const char *name, const char *field);
struct list output(const char *name, const char *before, const char *after);

/* The numbers and the lists that a call is given. */
struct given {
    int64_t number[5];
    const struct list *list;
};

/*
 * Gives what `enter` answers, which makes the call and does nothing else. Where
 * stack is measured it runs on the painted one.
 */
uint64_t make_call(uint64_t (*enter)(const struct given *), const struct given *given);

/* Gives 1 where the answer is as the case says, else prints it and gives 0. */
int answers(const char *name, uint64_t answer, int64_t number);

/* The test of a call. */
struct test {
    size_t fields; /* of a case */
    size_t lists;  /* that are lent, at most MOST_LISTS */
    void (*read_lists)(char **field, struct list *list);
    /* Makes the call and gives what `answers` does. */
    int (*call)(char **field, const struct list *list);
};
#define MOST_LISTS 8

/*
 * Reads cases from standard input and tries each in three passes. The first
 * two are alike but for the guard bytes around each list, which the call must
 * not see, and for the alignment. The third has no guard bytes, so that a
 * memory checker sees the ends of each list, and NULL for an empty list. After
 * each call every list with its guards must hold what the case says. Prints
 * the cases that are wrong (the first ten) and then the count. Gives the exit
 * status: 0 where there are cases, each can be read and none is wrong.
 *
 * The program's one word, where it has one, is how many bytes of stack a call
 * may take. The calls then run on a stack that was painted before the first of
 * them; what is still painted after the last was never reached. The deepest
 * call is printed, and the status is 1 where it is deeper than it may be. A
 * memory checker is better used without that word.
 */
int run_cases(const struct test *test, int argc, char **argv);

#endif
