/*
 * The statement of a settled hour.
 */
#ifndef STATEMENT_H
#define STATEMENT_H

#include "hour.h"

enum figure { CONGESTION, LOSS, CREDIT, NET, FIGURES };

/* What a figure is called in a table. */
extern const char *const figure_word[FIGURES];

struct statement {
    size_t participants;
    int64_t of[WZ_MOST_PARTICIPANTS][FIGURES]; /* in cents */
    int64_t total[FIGURES];
};

/* Settles an hour. Gives WZ_OK, or the engine's refusal. */
uint32_t settle(const struct hour *hour, struct statement *statement);

/* As document 01 has it: a line for each participant and one of totals, in cents. */
void print_cents(const struct statement *statement);

/* For people: the same figures in dollars and cents, under a heading, aligned. */
void print_dollars(const struct statement *statement, const struct names *names);

/* The commands `statement` and `settle`, of the file of that name. */
enum status print_statement(struct job *job, const char *name);
enum status print_settled(struct job *job, const char *name);

#endif
