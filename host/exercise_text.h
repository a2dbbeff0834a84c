/*
 * The text form of an hour; README.md describes it.
 */
#ifndef EXERCISE_TEXT_H
#define EXERCISE_TEXT_H

#include "exercise.h"
#include "names.h"

/*
 * What a line of a market tells of. The kinds of rows come first, each in the
 * place of its number.
 */
enum thing {
    LOAD,
    GENERATION,
    EXPORT,
    IMPORT,
    DECREMENT_BID,
    INCREMENT_OFFER,
    TRANSACTION,
    PRICES_OF_CONGESTION,
    PRICES_OF_LOSS,
    THINGS
};

/* Their words; the second of a thing is NULL where it has one alone. */
extern const char *const market_word[MARKETS];
extern const char *const thing_words[THINGS][2];

/* Whether a word is one of the form's, but for capital letters. */
int has_capitals(const char *word);

/* Room for what a line begins with, such as "real-time congestion prices 10-11". */
#define HEAD_LEN 40

/* Writes the one or two words of a thing. */
void write_thing(char words[HEAD_LEN], enum thing thing);

/*
 * Writes what a line begins with: market, thing, and intervals where they are
 * real time.
 */
void write_head(char head[HEAD_LEN], enum market market, enum thing thing, int64_t first,
                int64_t last);

/* The prices of a list. */
enum thing prices_of(enum price_list list);

/* Where each number of an hour stands in its text: lines, from 1. */
struct lines {
    size_t participants, locations, edition; /* 0 where there is no such line */
    size_t stretches[WZ_LOCATION_PRICES];
    size_t rows[ROOM], transactions[ROOM];
    size_t without_unit; /* the first with power that has no unit, 0 where all have one */
    size_t without_mark; /* the first with a price other than 0 that has no $, or 0 */
};

/*
 * Reads an hour's text from its bytes. `names` is given with those of other
 * files, by which lines may name participants and locations, too, and gets the
 * text's own where they have none. Gives 1, or 0 where it isn't in the text
 * form; it has then said where and why. What the numbers mean is left to the
 * engine.
 */
int take_exercise_text(const char *name, const uint8_t *bytes, size_t len,
                       struct exercise *exercise, struct lines *lines, struct names *names);

/* Prints an hour that the engine accepts, in dollars and MW, and the names there are. */
void print_exercise_text(const struct exercise *exercise, const struct names *names);

#endif
