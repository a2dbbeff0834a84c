/*
 * The answer on standard output: lines for people, or a table as CSV or JSON.
 *
 * A table has columns, and a line of it cells; empty cells are left out of
 * JSON. With several files its first column is the file, and its last ones are
 * refusal, sentence and place; of a file that can't be used the place is what
 * was said, and the other two are empty. Of one file that is refused these three
 * are the whole table.
 */
#ifndef ANSWER_H
#define ANSWER_H

#include "figures.h"

#include <stddef.h>
#include <stdint.h>

enum format { PLAIN, CSV, JSON };

struct cell {
    enum { NO_CELL, TEXT_CELL, NUMBER_CELL } kind;
    const char *text;
    int64_t number;
    char room[DOLLARS_LEN]; /* for a text of its own */
};

#define MOST_COLUMNS 13

struct answer {
    enum format format;
    int several;      /* there are several files */
    const char *file; /* the one at hand */
    const char *const *columns;
    size_t count; /* of the columns */
    struct cell cells[MOST_COLUMNS];
    size_t told; /* files in plain print, or lines of the table, so far */
};

/* The columns of all lines; the same in each call for an answer. */
void set_columns(struct answer *answer, const char *const *columns, size_t count);

/* Fills a cell of the line at hand. A text stays the caller's until the line's end. */
void put_text(struct answer *answer, size_t column, const char *text);
void put_number(struct answer *answer, size_t column, int64_t number);
void put_dollars(struct answer *answer, size_t column, int64_t cents);

/* Prints the line at hand, and begins one with empty cells. */
void end_line(struct answer *answer);

/* Begins plain print of the file at hand: of several, each has its name in a line. */
void begin_plain(struct answer *answer);

/* Prints that the file at hand is refused. The place is empty where there is none. */
void print_refusal(struct answer *answer, uint32_t refusal, const char *place);

/* Prints in a table of several files that the file at hand can't be used, and why. */
void print_unusable(struct answer *answer, const char *why);

/* Ends the answer, where there is one; a table without lines has its heading. */
void end_answer(struct answer *answer, int is_given);

#endif
