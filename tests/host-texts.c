/*
 * host-texts FOLDER NAME..: tests the text form of hours on exercise files,
 * NAME.exercise beside NAME.statement. Of each file that the engine reads
 *
 * - the text that the program prints is read back to the same numbers and the
 *   same bytes, and printed from there it is the same text;
 * - so is a text that is written here, in other units and other ways;
 * - and both are so of the same hour in the other edition: each transaction gets
 *   a seller, or loses it.
 *
 * Every other file is refused with the number of its statement. The texts are
 * kept in the folder.
 */
#include "exercise_text.h"
#include "files.h"
#include "wunzelihle.h"

#include <inttypes.h>
#include <stdarg.h>
#include <stdio.h>
#include <string.h>

static const struct names no_names;
static char printed_path[1000], again_path[1000], written_path[1000];

/* ---- a text of the same hour, in other ways than the program's */

/* A number below `many` that nobody would guess; the same in every run. */
static unsigned any(unsigned many)
{
    static uint32_t state = 1;

    state = state * 1664525u + 1013904223u;
    return (state >> 16) % many;
}

static void put_blanks(FILE *to)
{
    unsigned left = 1 + any(3);

    while (left-- > 0)
        fputc(any(4) == 0 ? '\t' : ' ', to);
}

/* Writes a word, or a few, and the blanks after it. */
static void put(FILE *to, const char *form, ...)
{
    va_list words;

    va_start(words, form);
    vfprintf(to, form, words);
    va_end(words);
    put_blanks(to);
}

static void put_end(FILE *to)
{
    static const char *const ends[] = {"\n", "\r\n", "# a comment, day-ahead load\n",
                                       "\n\n \t\n#\n"};

    fputs(ends[any(4)], to);
}

/* Writes a number and a unit of a thousand of it, or the number alone. */
static void put_thousandths(FILE *to, int64_t number, const char *before, const char *after,
                            const char *alone)
{
    int64_t size = number < 0 ? -number : number;

    if (any(2) == 0)
        put(to, "%" PRId64 "%s", number, alone);
    else if (size % 1000 == 0 && any(2) == 0)
        put(to, "%s%s%" PRId64 "%s", number < 0 ? "-" : "", before, size / 1000, after);
    else if (size % 10 == 0 && any(2) == 0)
        put(to, "%s%s%" PRId64 ".%02" PRId64 "%s", number < 0 ? "-" : "", before, size / 1000,
            size % 1000 / 10, after);
    else
        put(to, "%s%s00%" PRId64 ".%03" PRId64 "%s", number < 0 ? "-" : "", before, size / 1000,
            size % 1000, after);
}

static void put_price(FILE *to, int64_t mills)
{
    put_thousandths(to, mills, "$", "", "");
}

static void put_power(FILE *to, int64_t kw)
{
    put_thousandths(to, kw, "", " MW", any(2) == 0 ? "" : " kW");
}

static void put_stretch(FILE *to, const struct exercise *exercise, size_t stretch)
{
    size_t interval = stretch % 13, l;

    put(to, interval == 0 ? "day-ahead" : "real-time");
    put(to, stretch < 13 ? "congestion" : "loss");
    put(to, "prices");
    if (interval > 0)
        put(to, "%zu", interval - 1);
    for (l = 0; l < (size_t)exercise->locations; l++)
        put_price(to, price_at(exercise, stretch, l));
    put_end(to);
}

static void put_row(FILE *to, const struct entries *rows, size_t row)
{
    static const char *const kinds[] = {"load",   "generation",    "export",
                                        "import", "decrement bid", "increment offer"};

    put(to, entry_number(rows, row, 0) == 0 ? "day-ahead" : "real-time");
    put(to, kinds[entry_number(rows, row, 1)]);
    if (entry_number(rows, row, 0) == 1)
        put(to, "%" PRId64, entry_number(rows, row, 2));
    put(to, "participant");
    put(to, "%" PRId64, entry_number(rows, row, 3));
    put(to, "location");
    put(to, "%" PRId64, entry_number(rows, row, 4));
    put_power(to, entry_number(rows, row, 5));
    put_end(to);
}

/* A transaction of edition 1 has the seller after the participant. */
static void put_transaction(FILE *to, const struct entries *transactions, size_t transaction)
{
    size_t sold = transactions->width == 7;
    int64_t interval = entry_number(transactions, transaction, 1);
    int real_time = entry_number(transactions, transaction, 0) == 1;

    put(to, real_time ? "real-time" : "day-ahead");
    put(to, "transaction");
    if (real_time && any(2) == 0)
        put(to, "%" PRId64 "-%" PRId64, interval, interval);
    else if (real_time)
        put(to, "%" PRId64, interval);
    put(to, "participant");
    put(to, "%" PRId64, entry_number(transactions, transaction, 2));
    if (sold) {
        put(to, "seller");
        put(to, "%" PRId64, entry_number(transactions, transaction, 3));
    }
    put(to, "from");
    put(to, "%" PRId64, entry_number(transactions, transaction, 3 + sold));
    put(to, "to");
    put(to, "%" PRId64, entry_number(transactions, transaction, 4 + sold));
    put_power(to, entry_number(transactions, transaction, 5 + sold));
    put_end(to);
}

static void put_edition(FILE *to, const struct exercise *exercise)
{
    put(to, "edition");
    put(to, "%" PRId64, exercise->edition);
    put_end(to);
}

/*
 * Prices, rows and transactions stand in turn here, each in their own order. The
 * edition stands first, last or, where transactions tell it, nowhere.
 */
static int write_text(const struct exercise *exercise)
{
    FILE *to = fopen(written_path, "wb");
    size_t s = WZ_LOCATION_PRICES, r = 0, t = 0;
    int is_told = exercise->edition == 0 || exercise->transactions.count > 0;
    unsigned where = any(is_told ? 3 : 2);

    if (!to)
        return 0;
    if (where == 0)
        put_edition(to, exercise);
    put(to, "locations");
    put(to, "%" PRId64, exercise->locations);
    put_end(to);
    while (s > 0 || r < exercise->rows.count || t < exercise->transactions.count) {
        if (s > 0 && any(3) == 0)
            put_stretch(to, exercise, --s);
        if (r < exercise->rows.count && any(3) > 0)
            put_row(to, &exercise->rows, r++);
        if (t < exercise->transactions.count && any(3) == 0)
            put_transaction(to, &exercise->transactions, t++);
    }
    if (where == 1)
        put_edition(to, exercise);
    put(to, "participants");
    put(to, "%" PRId64, exercise->participants);
    return fclose(to) == 0;
}

/* ---- the other edition */

/* The same hour, each transaction with a seller that nobody would guess, or without. */
static void exchange_edition(const struct exercise *exercise, struct exercise *other)
{
    size_t sold = exercise->edition == 0, t, i;

    *other = *exercise;
    other->edition = (int64_t)sold;
    other->transactions.width = 6 + sold;
    for (t = 0; t < other->transactions.count; t++) {
        uint8_t *numbers = other->transactions.numbers + 8 * (6 + sold) * t;

        for (i = 0; i < 6; i++)
            wz_put(numbers, i < 3 ? i : i + sold,
                   entry_number(&exercise->transactions, t, i < 3 || sold ? i : i + 1));
        if (sold)
            wz_put(numbers, 3, any((unsigned)other->participants));
    }
}

/* ---- the tests */

static int is_wrong(const char *name, const char *what)
{
    fprintf(stderr, "%s: %s\n", name, what);
    return 0;
}

/* The program's own text goes to standard output, and so to a file. */
static int print_to(const char *path, const struct exercise *exercise)
{
    if (!freopen(path, "wb", stdout))
        return 0;
    print_exercise_text(exercise, &no_names);
    return fflush(stdout) == 0;
}

/* Reads a text by its name. */
static int read_by_name(const char *name, struct exercise *exercise, struct lines *lines)
{
    static uint8_t bytes[LONGEST_TEXT];
    struct names names = {0};
    size_t len;

    return read_file(name, bytes, sizeof bytes, &len) &&
           take_exercise_text(name, bytes, len, exercise, lines, &names);
}

static int same_files(const char *one, const char *other)
{
    static uint8_t bytes[LONGEST_TEXT], others[LONGEST_TEXT];
    size_t len, others_len;

    return read_file(one, bytes, sizeof bytes, &len) &&
           read_file(other, others, sizeof others, &others_len) && len == others_len &&
           memcmp(bytes, others, len) == 0;
}

/* The text comes to the bytes of the file, and what was read of it to the printed text. */
static int comes_back(const char *text, const uint8_t *file, size_t len)
{
    static struct exercise exercise;
    static struct lines lines;
    uint8_t bytes[WZ_LONGEST_FILE];
    size_t bytes_len = 0;

    return read_by_name(text, &exercise, &lines) &&
           write_exercise(&exercise, bytes, &bytes_len) == WZ_OK && bytes_len == len &&
           memcmp(bytes, file, len) == 0 && print_to(again_path, &exercise) &&
           same_files(printed_path, again_path);
}

/* The number that the statement refuses the file with up to its last transaction, or 0. */
static int expected_refusal(const char *name, uint32_t *refusal)
{
    char path[1000];
    uint8_t start[32] = {0};
    size_t len;

    snprintf(path, sizeof path, "%s.statement", name);
    if (!read_file(path, start, sizeof start - 1, &len))
        return 0;
    if (sscanf((const char *)start, "refused %" SCNu32, refusal) != 1 || *refusal == WZ_SURPLUS ||
        *refusal == WZ_NO_SHARES)
        *refusal = WZ_OK;
    return 1;
}

/* The hour of a file comes back from the program's text and from another. */
static int is_kept(const char *name, const struct exercise *exercise, const uint8_t *file,
                   size_t len)
{
    if (!print_to(printed_path, exercise) || !comes_back(printed_path, file, len))
        return is_wrong(name, "the text that is printed doesn't come back");
    if (!write_text(exercise) || !comes_back(written_path, file, len))
        return is_wrong(name, "a text in other ways doesn't come back");
    return 1;
}

static int is_right(const char *name)
{
    static struct exercise exercise, other;
    char path[1000];
    uint8_t file[WZ_LONGEST_FILE + 1];
    uint32_t expected, refusal;
    size_t len;

    snprintf(path, sizeof path, "%s.exercise", name);
    if (!expected_refusal(name, &expected) || !read_file(path, file, sizeof file, &len))
        return 0;
    refusal = read_exercise(file, len, &exercise);
    if (refusal != expected)
        return is_wrong(name, "read otherwise than its statement says");
    if (refusal != WZ_OK)
        return 1;
    if (!is_kept(name, &exercise, file, len))
        return 0;
    exchange_edition(&exercise, &other);
    if (write_exercise(&other, file, &len) != WZ_OK)
        return is_wrong(name, "it can't be written in the other edition");
    return is_kept(name, &other, file, len);
}

int main(int argc, char **argv)
{
    int wrong = 0, i;

    if (argc < 3)
        return 2;
    snprintf(printed_path, sizeof printed_path, "%s/printed.text", argv[1]);
    snprintf(again_path, sizeof again_path, "%s/again.text", argv[1]);
    snprintf(written_path, sizeof written_path, "%s/written.text", argv[1]);
    for (i = 2; i < argc; i++)
        wrong += !is_right(argv[i]);
    fprintf(stderr, "%d cases, %d wrong\n", argc - 2, wrong);
    return wrong > 0;
}
