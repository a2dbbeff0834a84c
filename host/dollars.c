#include "statement.h"

#include <stdio.h>
#include <string.h>

#define COLUMNS (1 + FIGURES)
#define WIDEST LABEL_LEN /* more than an amount is */

static const char *const heading[COLUMNS] = {"Participant", "Congestion charge", "Loss charge",
                                             "Loss credit", "Net"};

/* A statement with the names of its participants. */
struct page {
    const struct statement *statement;
    const struct names *names;
    int has_names;
    size_t width[COLUMNS];
};

/* What stands before a line's amounts: a participant's number and name. */
static void participant_of(const struct page *page, size_t line, char text[WIDEST])
{
    int width = page->has_names && page->statement->participants > 10 ? 2 : 1;

    if (line == page->statement->participants)
        snprintf(text, WIDEST, "Total");
    else
        write_label(text, page->names, PARTICIPANT, (int64_t)line, width);
}

/* What stands in a line and a column; the line after the participants has the totals. */
static void cell_of(const struct page *page, size_t line, size_t column, char text[WIDEST])
{
    const struct statement *statement = page->statement;
    int totals = line == statement->participants;

    if (column == 0)
        participant_of(page, line, text);
    else
        dollars_of((totals ? statement->total : statement->of[line])[column - 1], text);
}

/* A column is as wide as the widest that stands in it. */
static size_t width_of(const struct page *page, size_t column)
{
    char text[WIDEST];
    size_t width = strlen(heading[column]);
    size_t line;

    for (line = 0; line <= page->statement->participants; line++) {
        cell_of(page, line, column, text);
        if (letters_in(text) > width)
            width = letters_in(text);
    }
    return width;
}

/*
 * Prints a column of a line at the column's right, participants with names at
 * its left, and the line's end in the last.
 */
static void print_cell(const struct page *page, const char *text, size_t column)
{
    int blanks = (int)(page->width[column] - letters_in(text));
    int is_left = column == 0 && page->has_names;

    printf("%*s%s%*s%s", is_left ? 0 : blanks, "", text, is_left ? blanks : 0, "",
           column + 1 < COLUMNS ? "  " : "\n");
}

static void print_line(const struct page *page, size_t line)
{
    char text[WIDEST];
    size_t c;

    for (c = 0; c < COLUMNS; c++) {
        cell_of(page, line, c, text);
        print_cell(page, text, c);
    }
}

static void print_rule(const struct page *page)
{
    char text[WIDEST];
    size_t c;

    for (c = 0; c < COLUMNS; c++) {
        memset(text, '-', page->width[c]);
        text[page->width[c]] = '\0';
        print_cell(page, text, c);
    }
}

void print_dollars(const struct statement *statement, const struct names *names)
{
    struct page page = {statement, names, has_names(names, PARTICIPANT), {0}};
    size_t c, p;

    for (c = 0; c < COLUMNS; c++)
        page.width[c] = width_of(&page, c);
    puts("In dollars. Net is the two charges less the loss credit.\n");
    for (c = 0; c < COLUMNS; c++)
        print_cell(&page, heading[c], c);
    for (p = 0; p < statement->participants; p++)
        print_line(&page, p);
    print_rule(&page);
    print_line(&page, statement->participants);
}
