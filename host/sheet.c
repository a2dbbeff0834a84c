#include "sheet.h"

#include "files.h"
#include "say.h"

#include <ctype.h>
#include <stdio.h>
#include <string.h>

#define DIGITS "0123456789"
#define CENT_PLACES 2 /* of dollars */

/* ---- cells */

static int is_blank(const struct sheet *sheet, char c)
{
    return (c == ' ' || c == '\t' || c == '\r') && c != sheet->parting;
}

/*
 * Moves a quoted cell to where it goes, without its quotes; `from` is set after
 * them. Gives 0 where the quotes don't end with the cell.
 */
static int cut_quoted(struct sheet *sheet, char **from, char **to)
{
    for (++*from; **from != '\0'; ++*from) {
        if (**from == '"' && *++*from != '"') {
            while (is_blank(sheet, **from))
                ++*from;
            return **from == sheet->parting || **from == '\0';
        }
        *(*to)++ = **from;
    }
    return 0;
}

/* Moves a cell without quotes to where it goes, and the blanks around it away. */
static void cut_plain(struct sheet *sheet, char **from, char **to)
{
    char *first = *to;

    while (**from != sheet->parting && **from != '\0')
        *(*to)++ = *(*from)++;
    while (*to > first && is_blank(sheet, (*to)[-1]))
        --*to;
}

/* Cuts the line at hand into its cells, each ended where it stood. */
static int cut_cells(struct sheet *sheet)
{
    char *from = sheet->text.rest, *to = from;
    int is_last = 0;

    for (sheet->count = 0; !is_last && sheet->count < MOST_CELLS; from++) {
        char *cell = to;

        while (is_blank(sheet, *from))
            from++;
        if (*from != '"')
            cut_plain(sheet, &from, &to);
        else if (!cut_quoted(sheet, &from, &to))
            return fault(&sheet->text, "a quote",
                         "it ends with its cell, and \"\" stands for one");
        is_last = *from == '\0';
        *to++ = '\0';
        sheet->cells[sheet->count++] = cell;
    }
    return 1;
}

/* Whether the cells of the line at hand are all empty. */
static int is_empty(const struct sheet *sheet)
{
    size_t i = 0;

    while (i < sheet->count && *sheet->cells[i] == '\0')
        i++;
    return i == sheet->count;
}

/* Whether the line at hand has no cells: it is a comment, or blank. */
static int is_none(const struct text *text)
{
    return text->rest[strspn(text->rest, " \t\r")] == '#' ||
           text->rest[strspn(text->rest, " \t\r,;")] == '\0';
}

/* Takes the next line that has cells. Gives 0 at the sheet's end, -1 where it is at fault. */
static int next_cells(struct sheet *sheet)
{
    struct text *text = &sheet->text;

    while (text->at < text->len) {
        if (!next_line(text))
            return -1;
        if (is_none(text))
            continue;
        if (!cut_cells(sheet))
            return -1;
        if (!is_empty(sheet))
            return 1;
    }
    return 0;
}

/* Begins with the first line again. */
static void rewind_sheet(struct sheet *sheet)
{
    sheet->text.at = 0;
    sheet->text.line_number = 0;
}

const char *cell_in(const struct sheet *sheet, size_t column)
{
    return sheet->place[column] < sheet->count ? sheet->cells[sheet->place[column]] : "";
}

int take_sheet(struct sheet *sheet, take_cells_function *take, void *into)
{
    int skips = sheet->has_heading, more;

    rewind_sheet(sheet);
    while ((more = next_cells(sheet)) > 0) {
        if (!skips && !take(sheet, into))
            return 0;
        skips = 0;
    }
    return more == 0;
}

/* ---- amounts */

/* Whether digits and commas are a whole number: commas stand before three digits each. */
static int are_thousands(const char *digits, size_t len)
{
    size_t first = strcspn(digits, ","), i;

    if (len == 0 || first == 0)
        return 0;
    if (first >= len)
        return 1;
    if (first > 3 || (len - first) % 4 != 0)
        return 0;
    for (i = first; i < len; i++) {
        if ((digits[i] == ',') != ((i - first) % 4 == 0))
            return 0;
    }
    return 1;
}

/* Adds the digits of a text to a number that is kept below 0; gives 0 beyond 64 bits. */
static int add_digits(int64_t *negative, const char *digits, size_t len)
{
    size_t i;

    for (i = 0; i < len; i++) {
        int value = digits[i] - '0';

        if (digits[i] == ',')
            continue;
        if (*negative < (INT64_MIN + value) / 10)
            return 0;
        *negative = *negative * 10 - value;
    }
    return 1;
}

/* An amount as it is written: its sign and mark, its digits, and those after a point. */
struct written {
    int is_below, is_bracketed, has_mark, has_point;
    const char *whole, *places;
    size_t whole_len, places_len;
};

/*
 * How many digits and commas of an amount are whole dollars. In a sheet whose
 * cells aren't separated by commas a single one, with one or two digits after
 * it, stands for the point.
 */
static size_t len_of_whole(const struct sheet *sheet, const char *digits)
{
    size_t whole = strspn(digits, DIGITS), places;

    if (sheet->parting == ',' || digits[whole] != ',')
        return strspn(digits, DIGITS ",");
    places = strspn(digits + whole + 1, DIGITS);
    digits += whole + 1 + places;
    if (places >= 1 && places <= CENT_PLACES && *digits != ',' && *digits != '.')
        return whole;
    return whole + 1 + places + strspn(digits, DIGITS ",");
}

/* Takes an amount apart: -0.73, ($0.73), $1,000 or -73. Gives 0 where it is none. */
static int take_apart(const struct sheet *sheet, const char *cell, struct written *written)
{
    memset(written, 0, sizeof *written);
    for (; *cell != '\0' && strchr("-($ ", *cell); cell++) {
        written->is_bracketed += *cell == '(';
        written->is_below += *cell == '(' || *cell == '-';
        written->has_mark += *cell == '$';
    }
    written->whole = cell;
    written->whole_len = len_of_whole(sheet, cell);
    cell += written->whole_len;
    written->has_point = *cell == '.' || *cell == ',';
    written->places = cell + written->has_point;
    written->places_len = written->has_point ? strspn(written->places, DIGITS) : 0;
    return written->is_below < 2 && written->has_mark < 2 &&
           are_thousands(written->whole, written->whole_len) &&
           strcmp(written->places + written->places_len, written->is_bracketed ? ")" : "") == 0;
}

/* Adds up an amount in cents, below 0. Gives 0 where it is larger than any could be. */
static int add_up(const struct written *written, enum unit unit, int64_t *negative)
{
    size_t places = written->places_len < CENT_PLACES ? written->places_len : CENT_PLACES;

    *negative = 0;
    return add_digits(negative, written->whole, written->whole_len) &&
           (unit == CENTS || (add_digits(negative, written->places, places) &&
                              add_digits(negative, "00", CENT_PLACES - places))) &&
           *negative >= INT64_MIN / 2; /* so that a difference fits, too */
}

/* Reads an amount. Gives NULL, or why it is none. */
static const char *amount_of(const struct sheet *sheet, const char *cell, enum unit unit,
                             int64_t *cents)
{
    struct written written;
    int64_t negative;

    if (!take_apart(sheet, cell, &written))
        return "not an amount; write dollars as 9.27 or $9.27, or cents as 927, and below 0 as "
               "-9.27 or (9.27)";
    if (unit == CENTS && (written.has_mark || written.has_point))
        return "not whole cents; dollars have a point or a $ without --cents";
    if (written.places_len > CENT_PLACES &&
        written.places[CENT_PLACES + strspn(written.places + CENT_PLACES, "0")] != '\0')
        return "not whole cents; dollars have two places";
    if (!add_up(&written, unit, &negative))
        return "too large for an amount";
    *cents = written.is_below ? negative : -negative;
    return NULL;
}

const char *read_amount(const struct sheet *sheet, size_t figure, int64_t *cents)
{
    return amount_of(sheet, cell_in(sheet, figure), sheet->unit, cents);
}

int has_amounts(const struct sheet *sheet)
{
    struct written written;
    size_t f = 0;

    while (f < FIGURES && !take_apart(sheet, cell_in(sheet, f), &written))
        f++;
    return f < FIGURES;
}

/* ---- columns */

#define IGNORED SHEET_COLUMNS
#define UNKNOWN (SHEET_COLUMNS + 1)

/* The words of a heading; those that other tables have are ignored. */
static const struct {
    const char *word;
    size_t column;
} heading_words[] = {
    {"participant", PARTICIPANT_CELL},
    {"participants", PARTICIPANT_CELL},
    {"congestion", CONGESTION},
    {"congestion charge", CONGESTION},
    {"congestion charges", CONGESTION},
    {"loss", LOSS},
    {"losses", LOSS},
    {"loss charge", LOSS},
    {"loss charges", LOSS},
    {"credit", CREDIT},
    {"credits", CREDIT},
    {"loss credit", CREDIT},
    {"loss credits", CREDIT},
    {"net", NET},
    {"name", NAME_CELL},
    {"file", IGNORED},
    {"refusal", IGNORED},
    {"sentence", IGNORED},
    {"place", IGNORED},
    {"", IGNORED},
};

/* Whether a cell is a word, but for capital letters and what stands in parentheses after it. */
static int is_word(const char *cell, const char *word)
{
    size_t len = strcspn(cell, "("), i;

    while (len > 0 && cell[len - 1] == ' ')
        len--;
    for (i = 0; i < len && tolower((unsigned char)cell[i]) == word[i]; i++)
        ;
    return i == len && word[i] == '\0';
}

static size_t column_of(const char *cell)
{
    size_t i;

    for (i = 0; i < sizeof heading_words / sizeof *heading_words; i++) {
        if (is_word(cell, heading_words[i].word))
            return heading_words[i].column;
    }
    return UNKNOWN;
}

/* Says which columns of the heading are ignored because they aren't known. */
static void say_unknown(const struct sheet *sheet)
{
    size_t i;

    for (i = 0; i < sheet->count; i++) {
        if (column_of(sheet->cells[i]) == UNKNOWN)
            fault(&sheet->text, sheet->cells[i], "an unknown column, which is ignored");
    }
}

/* Says that the line at hand can't be a heading; gives 0. */
static int no_heading(const struct sheet *sheet)
{
    begin_message(called(sheet->text.name));
    fprintf(stderr,
            "line %zu is no heading: it needs a column participant or name and at least one of "
            "congestion, loss, credit, net; put # before any other line\n",
            sheet->text.line_number);
    return 0;
}

/* Takes the line at hand as a heading. */
static int take_heading(struct sheet *sheet)
{
    size_t i, figures = 0;

    sheet->columns = sheet->count;
    for (i = 0; i < sheet->count; i++) {
        size_t column = column_of(sheet->cells[i]);

        if (column >= SHEET_COLUMNS)
            continue;
        if (sheet->place[column] < MOST_CELLS)
            return fault(&sheet->text, sheet->cells[i], "there is such a column already");
        sheet->place[column] = i;
        figures += column < FIGURES;
    }
    if (sheet->place[PARTICIPANT_CELL] == MOST_CELLS) {
        sheet->place[PARTICIPANT_CELL] = sheet->place[NAME_CELL];
        sheet->place[NAME_CELL] = MOST_CELLS;
    }
    if (sheet->place[PARTICIPANT_CELL] == MOST_CELLS || figures == 0)
        return no_heading(sheet);
    say_unknown(sheet);
    return 1;
}

/* Without a heading the columns stand in the statement's order. */
static void take_no_heading(struct sheet *sheet)
{
    size_t f;

    sheet->columns = 1 + FIGURES;
    sheet->place[PARTICIPANT_CELL] = 0;
    for (f = 0; f < FIGURES; f++)
        sheet->place[f] = 1 + f;
}

/* Whether the line at hand is a heading: no cell of it is an amount. */
static int is_heading(const struct sheet *sheet)
{
    int64_t cents;
    size_t i = 0;

    while (i < sheet->count && amount_of(sheet, sheet->cells[i], UNIT_OF_SHEET, &cents) != NULL)
        i++;
    return i == sheet->count;
}

int fits_columns(const struct sheet *sheet)
{
    size_t count = sheet->count;
    char cells[40], why[100];

    while (count > 0 && *sheet->cells[count - 1] == '\0')
        count--;
    if (count <= sheet->columns)
        return 1;
    snprintf(cells, sizeof cells, "%zu cells", count);
    snprintf(why, sizeof why, "%s %zu; put amounts with a comma in quotes",
             sheet->has_heading ? "the heading has" : "without a heading there are",
             sheet->columns);
    return fault(&sheet->text, cells, why);
}

/* ---- the whole */

/*
 * What separates cells: a tab, else a semicolon, where the line has one outside
 * quotes, or a comma.
 */
static char parting_in(const char *line)
{
    int is_quoted = 0;
    char parting = ',';

    for (; *line && parting != '\t'; line++) {
        is_quoted ^= *line == '"';
        if (!is_quoted && (*line == ';' || *line == '\t'))
            parting = *line;
    }
    return parting;
}

/* Finds what separates cells, in the first line that may have some, and takes the heading. */
static int read_columns(struct sheet *sheet)
{
    struct text *text = &sheet->text;
    size_t c;
    int more;

    for (c = 0; c < SHEET_COLUMNS; c++)
        sheet->place[c] = MOST_CELLS;
    do {
        if (text->at >= text->len)
            return complain(called(text->name), "the sheet is empty") == STATUS_DONE;
        if (!next_line(text))
            return 0;
    } while (is_none(text));
    sheet->parting = parting_in(text->rest);
    rewind_sheet(sheet);
    more = next_cells(sheet);
    if (more <= 0)
        return more == 0 && complain(called(text->name), "the sheet is empty") == STATUS_DONE;
    sheet->has_heading = is_heading(sheet);
    if (sheet->has_heading)
        return take_heading(sheet);
    take_no_heading(sheet);
    return 1;
}

/* Makes the sheet one of dollars where an amount has a point or a $. */
static int find_dollars(struct sheet *sheet, void *into)
{
    struct written written;
    size_t f;

    (void)into;
    for (f = 0; f < FIGURES; f++) {
        if (take_apart(sheet, cell_in(sheet, f), &written) &&
            (written.has_mark || written.has_point)) {
            sheet->unit = DOLLARS;
            sheet->is_guessed = 0;
        }
    }
    return 1;
}

int read_sheet(struct sheet *sheet, const char *name, enum unit unit)
{
    static uint8_t bytes[LONGEST_TEXT + 1];

    memset(sheet, 0, sizeof *sheet);
    sheet->text.name = name;
    sheet->text.bytes = bytes;
    sheet->unit = unit == UNIT_OF_SHEET ? CENTS : unit;
    sheet->is_guessed = unit == UNIT_OF_SHEET;
    if (!read_file(name, bytes, sizeof bytes, &sheet->text.len) ||
        !may_be_text(name, bytes, sheet->text.len))
        return 0;
    if (sheet->text.len > 0 && !looks_like_text(bytes, sheet->text.len))
        return complain(called(name), "not a text; save the sheet as CSV") == STATUS_DONE;
    if (!read_columns(sheet))
        return 0;
    return unit != UNIT_OF_SHEET || take_sheet(sheet, find_dollars, NULL);
}
