/*
 * The text form of a load assignment; README.md describes it.
 */
#ifndef ASSIGNMENT_H
#define ASSIGNMENT_H

#include "lists.h"

/* The lines there are, in the order in which the engine tests what they hold. */
enum load_line {
    METERED_LINE,
    DISTRIBUTOR_LINE,
    LOADS_LINE,
    IMPORTS_LINE,
    GENERATION_LINE,
    AREA_LINE,
    CONTRACT_LINE,
    TRANCHE_LINE,
    LOAD_LINES
};

/* The word that begins such a line. */
const char *load_word(enum load_line line);

/* What wz_assign_load takes. */
struct assignment {
    int64_t metered, distributor, areas;
    struct list loads, imports, generation, area_parts, contracts, tranches;
};

/* Room for the numbers of lines of areas and contracts, as many as lists have room for. */
#define MOST_LINES MOST_NUMBERS

/* Where each number of an assignment stands in its text: lines, from 1. */
struct load_lines {
    size_t of[LOAD_LINES]; /* the first of such lines, 0 where there is none */
    size_t areas[MOST_LINES], contracts[MOST_LINES];
    size_t tranches[WZ_MOST_PARTICIPANTS];
};

/*
 * Reads the file of that name. Gives 1, or 0 where it can't be read or isn't in
 * the text form; it has then said where and why. What the numbers mean is left
 * to the engine.
 */
int read_assignment(const char *name, struct assignment *assignment, struct load_lines *lines);

#endif
