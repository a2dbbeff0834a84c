#include "compare.h"

#include "refusals.h"
#include "sheet.h"
#include "statement.h"

#include <inttypes.h>
#include <stdio.h>
#include <string.h>
#include <strings.h>

enum column {
    LINE_COLUMN,
    PARTICIPANT_COLUMN,
    NAME_COLUMN,
    FIGURE_COLUMN,
    SHEET_COLUMN,
    STATEMENT_COLUMN,
    DIFFERENCE_COLUMN,
    UNIT_COLUMN,
    NOTE_COLUMN,
    COLUMNS
};

static const char *const columns[COLUMNS] = {
    [LINE_COLUMN] = "line",
    [PARTICIPANT_COLUMN] = "participant",
    [NAME_COLUMN] = "name",
    [FIGURE_COLUMN] = "figure",
    [SHEET_COLUMN] = "sheet",
    [STATEMENT_COLUMN] = "statement",
    [DIFFERENCE_COLUMN] = "difference",
    [UNIT_COLUMN] = "unit",
    [NOTE_COLUMN] = "note",
};

/* Who a line of a sheet is about: a participant's number, or one of these. */
enum who { TOTAL = WZ_MOST_PARTICIPANTS, NOBODY };

/* What may be noted of a line, or of a participant that has none. */
enum note { STRANGER, REPEATED, MISSING, NOTES };

/* How it is put in the list, and in the sum of one and of several. */
static const struct {
    const char *in_list, *of_one, *of_several;
} note_words[NOTES] = {
    [STRANGER] = {"no participant of this hour", "line is of no participant of this hour",
                  "lines are of no participant of this hour"},
    [REPEATED] = {"twice in the sheet; the first is compared", "line comes a second time",
                  "lines come a second time"},
    [MISSING] = {"not in the sheet", "participant isn't in the sheet",
                 "participants aren't in the sheet"},
};

struct comparison {
    struct answer *answer;
    const struct hour *hour;
    const struct statement *statement;
    enum unit unit;
    int is_seen[TOTAL + 1]; /* which participants the sheet has had, and the total */
    size_t width;           /* of the widest participant */
    size_t compared, differ;
    size_t unread; /* amounts that can't be read, of those that differ */
    size_t notes[NOTES];
};

static size_t notes_of(const struct comparison *comparison)
{
    size_t notes = 0, n;

    for (n = 0; n < NOTES; n++)
        notes += comparison->notes[n];
    return notes;
}

/* ---- print */

static void write_amount(enum unit unit, int64_t cents, char text[DOLLARS_LEN])
{
    if (unit == DOLLARS)
        dollars_of(cents, text);
    else
        snprintf(text, DOLLARS_LEN, "%" PRId64, cents);
}

static void write_who(const struct comparison *comparison, size_t who, char label[LABEL_LEN])
{
    if (who == TOTAL)
        snprintf(label, LABEL_LEN, "total");
    else
        write_label(label, &comparison->hour->names, PARTICIPANT, (int64_t)who, 0);
}

static size_t width_of_labels(const struct comparison *comparison)
{
    size_t width = strlen("Participant"), p;
    char label[LABEL_LEN];

    for (p = 0; p < comparison->statement->participants; p++) {
        write_who(comparison, p, label);
        if (letters_in(label) > width)
            width = letters_in(label);
    }
    return width;
}

/* Begins a line of the list, under its heading where it is the first. */
static void begin_line(const struct comparison *comparison, size_t line, const char *label)
{
    int blanks = (int)comparison->width - (int)letters_in(label);

    if (comparison->differ + notes_of(comparison) == 0)
        printf("Line  %-*s  %-10s  %12s  %12s  %12s\n", (int)comparison->width, "Participant",
               "Figure", "Sheet", "Statement", "Difference");
    if (line > 0)
        printf("%4zu  ", line);
    else
        printf("%4s  ", "");
    print_word(stdout, label);
    printf("%*s  ", blanks > 0 ? blanks : 0, "");
}

static void put_who(struct comparison *comparison, size_t who)
{
    if (who == TOTAL) {
        put_text(comparison->answer, PARTICIPANT_COLUMN, "total");
        return;
    }
    put_number(comparison->answer, PARTICIPANT_COLUMN, (int64_t)who);
    put_text(comparison->answer, NAME_COLUMN,
             name_of(&comparison->hour->names, PARTICIPANT, (int64_t)who));
}

/* ---- what doesn't fit */

/* Lists a line that doesn't fit, or a participant that has none. */
static void list_note(struct comparison *comparison, size_t line, size_t who, const char *word,
                      enum note note)
{
    char label[LABEL_LEN];

    write_who(comparison, who, label);
    if (comparison->answer->format == PLAIN) {
        begin_line(comparison, line, who != NOBODY ? label : *word ? word : "-");
        puts(note_words[note].in_list);
    } else {
        if (line > 0)
            put_number(comparison->answer, LINE_COLUMN, (int64_t)line);
        if (who == NOBODY)
            put_text(comparison->answer, PARTICIPANT_COLUMN, word);
        else
            put_who(comparison, who);
        put_text(comparison->answer, NOTE_COLUMN, note_words[note].in_list);
        end_line(comparison->answer);
    }
    comparison->notes[note]++;
}

/* ---- what differs */

/* A figure in the sheet and in the statement; the sheet's may be missing, or no amount. */
struct pair {
    size_t line, who, figure;
    const char *cell;
    char why[40]; /* it is no amount, in few words; empty where it is one, or missing */
    int64_t sheet, statement;
};

/* Whether the sheet's cell has an amount. */
static int is_given(const struct pair *pair)
{
    return *pair->cell != '\0' && pair->why[0] == '\0';
}

static void put_amount(struct comparison *comparison, size_t column, int64_t cents)
{
    if (comparison->unit == DOLLARS)
        put_dollars(comparison->answer, column, cents);
    else
        put_number(comparison->answer, column, cents);
}

static void put_pair(struct comparison *comparison, const struct pair *pair)
{
    put_number(comparison->answer, LINE_COLUMN, (int64_t)pair->line);
    put_who(comparison, pair->who);
    put_text(comparison->answer, FIGURE_COLUMN, figure_word[pair->figure]);
    put_amount(comparison, STATEMENT_COLUMN, pair->statement);
    put_text(comparison->answer, UNIT_COLUMN, comparison->unit == DOLLARS ? "dollars" : "cents");
    put_text(comparison->answer, SHEET_COLUMN, pair->cell);
    put_text(comparison->answer, NOTE_COLUMN, pair->why);
    if (is_given(pair)) {
        put_amount(comparison, SHEET_COLUMN, pair->sheet);
        put_amount(comparison, DIFFERENCE_COLUMN, pair->sheet - pair->statement);
    }
    end_line(comparison->answer);
}

static void print_pair(const struct comparison *comparison, const struct pair *pair)
{
    char amount[DOLLARS_LEN], statement[DOLLARS_LEN], difference[DOLLARS_LEN] = "-";
    const char *sheet = *pair->cell ? pair->cell : "-";
    char label[LABEL_LEN];

    write_who(comparison, pair->who, label);
    write_amount(comparison->unit, pair->statement, statement);
    if (is_given(pair)) {
        write_amount(comparison->unit, pair->sheet, amount);
        write_amount(comparison->unit, pair->sheet - pair->statement, difference);
        sheet = amount;
    }
    begin_line(comparison, pair->line, label);
    printf("%-10s  %*s", figure_word[pair->figure],
           letters_in(sheet) < 12 ? 12 - (int)letters_in(sheet) : 0, "");
    print_word(stdout, sheet);
    printf("  %12s  %12s\n", statement, pair->why[0] ? pair->why : difference);
}

static void compare_pair(struct comparison *comparison, const struct pair *pair)
{
    comparison->compared++;
    if (is_given(pair) && pair->sheet == pair->statement)
        return;
    if (comparison->answer->format == PLAIN)
        print_pair(comparison, pair);
    else
        put_pair(comparison, pair);
    comparison->differ++;
}

/* ---- lines of the sheet */

/*
 * The name in a label such as "2 Skywind", and the number before it; NULL where
 * a cell is no label.
 */
static const char *name_in_label(const char *cell, int64_t *number)
{
    size_t digits = strspn(cell, "0123456789");
    char text[20];

    if (digits == 0 || digits >= sizeof text || cell[digits] != ' ')
        return NULL;
    memcpy(text, cell, digits);
    text[digits] = '\0';
    return read_number(text, number) == NULL ? cell + digits + strspn(cell + digits, " ") : NULL;
}

/* Which participant a line is about, and what the sheet calls it beside its number. */
struct subject {
    const char *cell; /* that names it */
    const char *name; /* empty where there is none beside it */
    size_t who;
    int is_numbered; /* it goes by a number */
};

/* Takes the cell of a line that names somebody: a number, a name, a label, or the total. */
static void take_subject(const struct comparison *comparison, const struct sheet *sheet,
                         struct subject *subject)
{
    const struct names *names = &comparison->hour->names;
    const char *cell = cell_in(sheet, PARTICIPANT_CELL), *label;
    int64_t number = -1;

    subject->name = cell_in(sheet, NAME_CELL);
    if (*cell == '\0')
        cell = subject->name;
    subject->cell = cell;
    subject->is_numbered = read_number(cell, &number) == NULL;
    subject->who = NOBODY;
    if (*cell == '\0')
        return;
    if (is_total(cell)) {
        subject->who = TOTAL;
    } else if (!subject->is_numbered && !find_name_like(names, PARTICIPANT, cell, &number)) {
        label = name_in_label(cell, &number);
        subject->is_numbered = label != NULL;
        subject->name = label ? label : subject->name;
    }
    if (number >= 0 && number < (int64_t)comparison->statement->participants)
        subject->who = (size_t)number;
}

/* Says that the sheet calls a participant by another name than the hour does. */
static void check_name(const struct comparison *comparison, const struct sheet *sheet,
                       const struct subject *subject)
{
    const char *name;
    char why[160];

    if (subject->who >= TOTAL || *subject->name == '\0')
        return;
    name = name_of(&comparison->hour->names, PARTICIPANT, (int64_t)subject->who);
    if (*name == '\0' || strcasecmp(name, subject->name) == 0)
        return;
    snprintf(why, sizeof why, "participant %zu is called %s, and the line is compared with it",
             subject->who, name);
    fault(&sheet->text, subject->name, why);
}

/* Takes the cell of a figure. */
static void take_cell(struct comparison *comparison, const struct sheet *sheet, struct pair *pair)
{
    const char *why;

    pair->cell = cell_in(sheet, pair->figure);
    pair->why[0] = '\0';
    pair->sheet = 0;
    if (*pair->cell == '\0')
        return;
    why = read_amount(sheet, pair->figure, &pair->sheet);
    if (!why)
        return;
    snprintf(pair->why, sizeof pair->why, "%.*s", (int)strcspn(why, ";"), why);
    if (comparison->unread++ == 0)
        fault(&sheet->text, pair->cell, why);
}

/* Compares the figures of a line. */
static void compare_figures(struct comparison *comparison, const struct sheet *sheet, size_t who)
{
    const struct statement *statement = comparison->statement;
    struct pair pair = {.line = sheet->text.line_number, .who = who};

    for (pair.figure = 0; pair.figure < FIGURES; pair.figure++) {
        if (sheet->place[pair.figure] == MOST_CELLS)
            continue;
        take_cell(comparison, sheet, &pair);
        pair.statement = (who == TOTAL ? statement->total : statement->of[who])[pair.figure];
        compare_pair(comparison, &pair);
    }
}

/* Whether the line at hand is a remark: about nobody, and without an amount. */
static int is_remark(const struct sheet *sheet, const struct subject *subject)
{
    return subject->who == NOBODY && !has_amounts(sheet);
}

static int compare_line(struct sheet *sheet, void *into)
{
    struct comparison *comparison = into;
    size_t line = sheet->text.line_number;
    struct subject subject;

    take_subject(comparison, sheet, &subject);
    check_name(comparison, sheet, &subject);
    if (is_remark(sheet, &subject)) {
        fault(&sheet->text, *subject.cell ? subject.cell : "no participant",
              "a line without a participant and without amounts, which is ignored");
    } else if (subject.who == NOBODY) {
        list_note(comparison, line, NOBODY, subject.cell, STRANGER);
    } else if (comparison->is_seen[subject.who]) {
        list_note(comparison, line, subject.who, subject.cell, REPEATED);
    } else {
        comparison->is_seen[subject.who] = 1;
        compare_figures(comparison, sheet, subject.who);
    }
    return 1;
}

/* ---- whether it can be compared */

/* What the lines of a sheet go by. */
struct lines_by {
    const struct comparison *comparison;
    size_t known;      /* lines whose participant is known */
    size_t first_name; /* the first line that goes by a name nobody has, or 0 */
    char name[LONGEST_NAME + 1];
};

static int look_at_line(struct sheet *sheet, void *into)
{
    struct lines_by *by = into;
    struct subject subject;

    take_subject(by->comparison, sheet, &subject);
    if (is_remark(sheet, &subject))
        return 1;
    by->known += subject.who < TOTAL;
    if (subject.who == NOBODY && !subject.is_numbered && *subject.cell && by->first_name == 0) {
        by->first_name = sheet->text.line_number;
        snprintf(by->name, sizeof by->name, "%s", subject.cell);
    }
    return fits_columns(sheet);
}

/*
 * Whether the lines of a sheet have their columns, and go by names only where
 * the hour has some. Otherwise it has said so.
 */
static int can_be_compared(const struct comparison *comparison, struct sheet *sheet)
{
    struct lines_by by = {.comparison = comparison};

    if (!take_sheet(sheet, look_at_line, &by))
        return 0;
    if (by.known > 0 || by.first_name == 0 || has_names(&comparison->hour->names, PARTICIPANT))
        return 1;
    sheet->text.line_number = by.first_name;
    return fault(&sheet->text, by.name,
                 comparison->hour->is_text
                     ? "this text has no names; write lines such as 'participant 0 is NAME' in it"
                     : "an exercise file has no names; give them with --names FILE, which may be "
                       "the hour's text");
}

/* ---- the whole */

/* Prints which unit the amounts of the sheet were read in. */
static void print_unit(const struct sheet *sheet, int agrees)
{
    if (sheet->is_guessed && !agrees)
        puts("The sheet is read as cents, as no amount has a point or $ (--dollars reads "
             "dollars).");
    else
        printf("The sheet is in %s.\n", sheet->unit == DOLLARS ? "dollars" : "cents");
}

static void print_sum(const struct comparison *comparison, const struct sheet *sheet)
{
    int agrees = comparison->differ + notes_of(comparison) == 0;
    size_t n;

    fputs(agrees ? "" : "\n", stdout);
    if (comparison->differ > 0)
        printf("%zu of %zu figures differ", comparison->differ, comparison->compared);
    else if (comparison->compared > 0)
        printf("All %zu figures agree", comparison->compared);
    else
        fputs("No figures are compared", stdout);
    for (n = 0; n < NOTES; n++) {
        size_t notes = comparison->notes[n];

        if (notes > 0)
            printf("; %zu %s", notes,
                   notes == 1 ? note_words[n].of_one : note_words[n].of_several);
    }
    fputs(". ", stdout);
    print_unit(sheet, agrees);
}

static enum status compare_sheet(struct comparison *comparison, struct sheet *sheet)
{
    size_t p;

    comparison->unit = sheet->unit;
    comparison->width = width_of_labels(comparison);
    if (!can_be_compared(comparison, sheet) || !take_sheet(sheet, compare_line, comparison))
        return STATUS_FAULT;
    for (p = 0; p < comparison->statement->participants; p++) {
        if (!comparison->is_seen[p])
            list_note(comparison, 0, p, "", MISSING);
    }
    if (comparison->answer->format == PLAIN)
        print_sum(comparison, sheet);
    return comparison->differ + notes_of(comparison) == 0 ? STATUS_DONE : STATUS_REFUSED;
}

enum status compare_words(struct job *job)
{
    struct hour hour;
    struct statement statement;
    struct sheet sheet;
    struct comparison comparison = {
        .answer = &job->answer, .hour = &hour, .statement = &statement};
    uint32_t refusal;

    set_columns(&job->answer, columns, COLUMNS);
    if (!read_hour(job, job->words[0], &hour))
        return STATUS_FAULT;
    refusal = settle(&hour, &statement);
    if (refusal != WZ_OK)
        return refuse_hour(&job->answer, &hour, refusal);
    if (!read_sheet(&sheet, job->words[1], job->unit))
        return STATUS_FAULT;
    return compare_sheet(&comparison, &sheet);
}
