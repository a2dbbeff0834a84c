/*
 * A sheet with a line for each participant: CSV as spreadsheets write it. Cells
 * are separated by commas, semicolons or tabs, and may be quoted. Blank lines, and
 * those that begin with #, are none of it.
 */
#ifndef SHEET_H
#define SHEET_H

#include "job.h"
#include "statement.h"
#include "text.h"

#define MOST_CELLS 64 /* of a line; more are ignored */

/* What stands in a column: a figure of a statement, or one of these. */
enum sheet_column { PARTICIPANT_CELL = FIGURES, NAME_CELL, SHEET_COLUMNS };

struct sheet {
    struct text text;
    char parting;                /* what separates its cells */
    size_t columns;              /* how many cells a line may have */
    size_t count;                /* of the cells of the line at hand */
    char *cells[MOST_CELLS];     /* of that line */
    size_t place[SHEET_COLUMNS]; /* of each column; MOST_CELLS where there is none */
    int has_heading;
    enum unit unit; /* of the amounts */
    int is_guessed; /* the unit is cents because no amount shows dollars */
};

/*
 * Reads the sheet of that name, its heading and in which unit it is, where that
 * isn't given. Gives 0 where it can't be used, and has said why.
 */
int read_sheet(struct sheet *sheet, const char *name, enum unit unit);

/*
 * Takes each line of a sheet in turn, its heading aside, until `take` gives 0.
 * Gives 1 where all of them were taken; otherwise what is wrong has been said.
 */
typedef int take_cells_function(struct sheet *sheet, void *into);
int take_sheet(struct sheet *sheet, take_cells_function *take, void *into);

/* The cell in a column of the line at hand; empty where there is none. */
const char *cell_in(const struct sheet *sheet, size_t column);

/*
 * Reads the amount of a figure's cell in the sheet's unit, as cents. Gives NULL,
 * or why it is none: a few words, and after a semicolon what to write.
 */
const char *read_amount(const struct sheet *sheet, size_t figure, int64_t *cents);

/* Whether a figure's cell in the line at hand is an amount. */
int has_amounts(const struct sheet *sheet);

/*
 * Whether the line at hand has no more cells than the heading. Otherwise its
 * columns are shifted, and it has said so.
 */
int fits_columns(const struct sheet *sheet);

#endif
