#include "answer.h"

#include "files.h"
#include "say.h"
#include "wunzelihle.h"

#include <inttypes.h>
#include <stdio.h>
#include <string.h>

enum refusal_column { REFUSAL, SENTENCE, PLACE, REFUSAL_COLUMNS };

static const char *const refusal_columns[REFUSAL_COLUMNS] = {
    [REFUSAL] = "refusal", [SENTENCE] = "sentence", [PLACE] = "place"};

/* ---- cells */

void set_columns(struct answer *answer, const char *const *columns, size_t count)
{
    answer->columns = columns;
    answer->count = count;
}

void put_text(struct answer *answer, size_t column, const char *text)
{
    answer->cells[column].kind = *text ? TEXT_CELL : NO_CELL;
    answer->cells[column].text = text;
}

void put_number(struct answer *answer, size_t column, int64_t number)
{
    answer->cells[column].kind = NUMBER_CELL;
    answer->cells[column].number = number;
}

void put_dollars(struct answer *answer, size_t column, int64_t cents)
{
    dollars_of(cents, answer->cells[column].room);
    put_text(answer, column, answer->cells[column].room);
}

/* ---- CSV */

static void print_csv_text(const char *text)
{
    if (text[strcspn(text, ",;\"\t\r\n")] == '\0') {
        fputs(text, stdout);
        return;
    }
    putchar('"');
    for (; *text; text++) {
        if (*text == '"')
            putchar('"'); /* twice where it is the text's own */
        putchar(*text);
    }
    putchar('"');
}

static void print_csv_cell(const struct cell *cell, size_t before)
{
    if (before > 0)
        putchar(',');
    if (cell->kind == NUMBER_CELL)
        printf("%" PRId64, cell->number);
    else if (cell->kind == TEXT_CELL)
        print_csv_text(cell->text);
}

/* ---- JSON */

/* How many bytes a UTF-8 letter has that begins with this one; 0 where none does. */
static size_t len_by_first(unsigned char first)
{
    if (first < 0x80)
        return 1;
    if (first < 0xc2 || first > 0xf4)
        return 0;
    return first < 0xe0 ? 2 : first < 0xf0 ? 3 : 4;
}

/* Whether the second byte of a letter leaves it shorter than it might be, or is beyond all. */
static int is_no_second(unsigned char first, unsigned char second)
{
    return (first == 0xe0 && second < 0xa0) || (first == 0xed && second > 0x9f) ||
           (first == 0xf0 && second < 0x90) || (first == 0xf4 && second > 0x8f);
}

/* How many bytes the UTF-8 letter has that a text begins with; 0 where it is none. */
static size_t letter_len(const unsigned char *text)
{
    size_t len = len_by_first(text[0]), i;

    for (i = 1; i < len; i++) {
        if ((text[i] & 0xc0) != 0x80)
            return 0;
    }
    return is_no_second(text[0], text[1]) ? 0 : len;
}

static void print_json_text(const char *text)
{
    putchar('"');
    while (*text) {
        size_t len = letter_len((const unsigned char *)text);

        if (*text == '"' || *text == '\\')
            printf("\\%c", *text);
        else if (len == 1 && ((unsigned char)*text < ' ' || *text == 0x7f))
            printf("\\u%04x", (unsigned)*text);
        else if (len == 0)
            fputs("\\ufffd", stdout);
        else
            fwrite(text, 1, len, stdout);
        text += len > 0 ? len : 1;
    }
    putchar('"');
}

static void print_json_cell(const char *column, const struct cell *cell, size_t before)
{
    fputs(before > 0 ? ", " : "", stdout);
    print_json_text(column);
    fputs(": ", stdout);
    if (cell->kind == NUMBER_CELL)
        printf("%" PRId64, cell->number);
    else
        print_json_text(cell->text);
}

/* ---- lines of a table */

/* The columns and cells of a line in their order: the file's, those given, a refusal's. */
struct line {
    size_t count;
    const char *columns[1 + MOST_COLUMNS + REFUSAL_COLUMNS];
    struct cell cells[1 + MOST_COLUMNS + REFUSAL_COLUMNS];
};

static void add_cells(struct line *line, const char *const *columns, const struct cell *cells,
                      size_t count)
{
    size_t i;

    for (i = 0; i < count; i++) {
        line->columns[line->count] = columns[i];
        line->cells[line->count++] = cells[i];
    }
}

/* Puts a line together; `refused` has the cells of a refusal, or is NULL. */
static void make_line(const struct answer *answer, const struct cell *refused, struct line *line)
{
    static const char *const file_column[] = {"file"};
    static const struct cell none[REFUSAL_COLUMNS];
    struct cell file = {.kind = TEXT_CELL, .text = called(answer->file ? answer->file : "")};

    line->count = 0;
    if (answer->several)
        add_cells(line, file_column, &file, 1);
    if (answer->several || !refused)
        add_cells(line, answer->columns, answer->cells, answer->count);
    if (answer->several || refused)
        add_cells(line, refusal_columns, refused ? refused : none, REFUSAL_COLUMNS);
}

static void print_heading(const struct line *line)
{
    size_t i;

    for (i = 0; i < line->count; i++)
        printf("%s%s", i > 0 ? "," : "", line->columns[i]);
    putchar('\n');
}

static void print_csv_line(const struct line *line)
{
    size_t i;

    for (i = 0; i < line->count; i++)
        print_csv_cell(&line->cells[i], i);
    putchar('\n');
}

static void print_json_line(const struct line *line)
{
    size_t i, before = 0;

    fputs("  {", stdout);
    for (i = 0; i < line->count; i++) {
        if (line->cells[i].kind != NO_CELL)
            print_json_cell(line->columns[i], &line->cells[i], before++);
    }
    putchar('}');
}

static void print_line(struct answer *answer, const struct cell *refused)
{
    struct line line;

    make_line(answer, refused, &line);
    if (answer->format == JSON) {
        fputs(answer->told > 0 ? ",\n" : "[\n", stdout);
        print_json_line(&line);
    } else {
        if (answer->told == 0)
            print_heading(&line);
        print_csv_line(&line);
    }
    answer->told++;
}

void end_line(struct answer *answer)
{
    print_line(answer, NULL);
    memset(answer->cells, 0, sizeof answer->cells);
}

/* ---- files */

void begin_plain(struct answer *answer)
{
    if (answer->several) {
        fputs(answer->told > 0 ? "\n" : "", stdout);
        print_word(stdout, called(answer->file));
        puts(":");
    }
    answer->told++;
}

void print_refusal(struct answer *answer, uint32_t refusal, const char *place)
{
    struct cell cells[REFUSAL_COLUMNS] = {
        [REFUSAL] = {.kind = NUMBER_CELL, .number = refusal},
        [SENTENCE] = {.kind = TEXT_CELL, .text = wz_sentence(refusal)},
        [PLACE] = {.kind = *place ? TEXT_CELL : NO_CELL, .text = place},
    };

    if (answer->format != PLAIN) {
        print_line(answer, cells);
        return;
    }
    begin_plain(answer);
    printf("refused %" PRIu32 "\n", refusal);
}

void print_unusable(struct answer *answer, const char *why)
{
    const struct cell cells[REFUSAL_COLUMNS] = {[PLACE] = {.kind = TEXT_CELL, .text = why}};

    if (answer->format == PLAIN || !answer->several)
        return;
    memset(answer->cells, 0, sizeof answer->cells);
    print_line(answer, cells);
}

void end_answer(struct answer *answer, int is_given)
{
    struct line line;

    if (answer->format == PLAIN || (answer->told == 0 && !is_given))
        return;
    if (answer->format == JSON) {
        puts(answer->told > 0 ? "\n]" : "[]");
    } else if (answer->told == 0) {
        make_line(answer, NULL, &line);
        print_heading(&line);
    }
}
