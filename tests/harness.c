#define _XOPEN_SOURCE 600 /* for ucontext.h */

#include "harness.h"

#include <errno.h>
#include <inttypes.h>
#include <stdio.h>
#include <stdlib.h>
#include <string.h>
#include <ucontext.h>

#define PASSES 3
#define GUARD 64
#define LONGEST_RUN 1000000
#define MOST_PRINTED 10
#define STACK_WORDS (1 << 17)
#define PAINT UINT64_C(0x9e3779b97f4a7c15)

static size_t line_number, cases, wrong;
static const char *line_text; /* of the case at hand, NULL once it is printed */

void leave(const char *why)
{
    printf("line %zu can't be read: %s\n", line_number, why);
    printf("%zu cases, %zu wrong\n", cases, wrong);
    exit(1);
}

static void *space(void *old, size_t len)
{
    void *block = realloc(old, len ? len : 1);

    if (!block)
        leave("no memory");
    return block;
}

/* The next line without its end, of any length; NULL after the last. */
static char *next_line(void)
{
    static char *line;
    static size_t room;
    size_t len = 0;
    int c;

    while ((c = getchar()) != EOF && c != '\n') {
        if (len + 2 > room) {
            room = 2 * room + 4096;
            line = space(line, room);
        }
        line[len++] = (char)c;
    }
    line_number++;
    if (ferror(stdin))
        leave(strerror(errno));
    if (c == EOF && len == 0)
        return NULL;
    if (c == EOF)
        leave("it is cut short");
    if (len == 0 || memchr(line, '\0', len))
        leave("it holds no case");
    line[len] = '\0';
    return line;
}

int64_t number_of(const char *field)
{
    char *end;
    intmax_t number;

    errno = 0;
    number = strtoimax(field, &end, 10);
    if (end == field || *end || errno || number < INT64_MIN || number > INT64_MAX)
        leave("a number is expected");
    return number;
}

static int digit(char c)
{
    if (c >= '0' && c <= '9')
        return c - '0';
    if (c >= 'a' && c <= 'f')
        return c - 'a' + 10;
    leave("a list is hex");
    return 0;
}

/* How often a byte stands: the count in braces behind it, else once. */
static size_t run_of(const char **text)
{
    char *end;
    uintmax_t run;

    if (**text != '{')
        return 1;
    errno = 0;
    run = strtoumax(*text + 1, &end, 10);
    if (*end != '}' || errno || run == 0 || run > LONGEST_RUN)
        leave("a count in braces is expected");
    *text = end + 1;
    return (size_t)run;
}

/* The bytes of a list, and how many they are. */
static uint8_t *bytes_of(const char *field, size_t *len)
{
    uint8_t *bytes = space(NULL, 0);
    size_t room = 0;

    *len = 0;
    while (*field) {
        uint8_t byte = (uint8_t)(16 * digit(field[0]) + digit(field[1]));
        size_t run;

        field += 2;
        run = run_of(&field);
        if (*len + run > room) {
            room = 2 * (*len + run);
            bytes = space(bytes, room);
        }
        memset(bytes + *len, byte, run);
        *len += run;
    }
    return bytes;
}

struct list input(const char *name, const char *field)
{
    struct list list = {0};

    list.name = name;
    list.before = list.after = bytes_of(field, &list.len);
    return list;
}

struct list output(const char *name, const char *before, const char *after)
{
    struct list list = input(name, before);
    size_t len;

    list.after = bytes_of(after, &len);
    if (len != list.len)
        leave("a list is of another length after the call");
    return list;
}

static void lend(struct list *list, int pass)
{
    int last = pass == PASSES - 1;
    size_t before = last ? 0 : GUARD + (line_number + (size_t)pass) % 8;

    free(list->block);
    list->block_len = before + list->len + (last ? 0 : GUARD);
    list->block = space(NULL, list->block_len);
    list->copy = list->block + before;
    list->guard = pass ? 0x5a : 0xff;
    memset(list->block, list->guard, list->block_len);
    memcpy(list->copy, list->before, list->len);
    list->lent = last && list->len == 0 ? NULL : list->copy;
}

static void release(struct list *list)
{
    if (list->after != list->before)
        free(list->after);
    free(list->before);
    free(list->block);
}

/* Prints the case before what is first said of it; 0 where enough was said. */
static int note(void)
{
    if (wrong >= MOST_PRINTED)
        return 0;
    if (line_text)
        printf("line %zu: %s\n", line_number, line_text);
    line_text = NULL;
    return 1;
}

/* Of the stack that calls run on, and of the call that runs there. */
static int measured;
static uint64_t stack[STACK_WORDS];
static ucontext_t outside, inside;
static uint64_t (*entered)(const struct given *);
static const struct given *entered_with;
static uint64_t answered;

static void enter_inside(void)
{
    answered = entered(entered_with);
}

uint64_t make_call(uint64_t (*enter)(const struct given *), const struct given *given)
{
    if (!measured)
        return enter(given);
    entered = enter;
    entered_with = given;
    if (getcontext(&inside) != 0)
        leave(strerror(errno));
    inside.uc_stack.ss_sp = stack;
    inside.uc_stack.ss_size = sizeof stack;
    inside.uc_link = &outside;
    makecontext(&inside, enter_inside, 0);
    if (swapcontext(&outside, &inside) != 0)
        leave(strerror(errno));
    return answered;
}

static void paint_stack(void)
{
    size_t i;

    measured = 1;
    for (i = 0; i < STACK_WORDS; i++)
        stack[i] = PAINT;
}

/* How many bytes were reached, with the few that the harness takes itself. */
static size_t depth_of_stack(void)
{
    size_t i = 0;

    while (i < STACK_WORDS && stack[i] == PAINT)
        i++;
    return sizeof stack - i * sizeof *stack;
}

int answers(const char *name, uint64_t answer, int64_t number)
{
    if (answer == (uint64_t)number)
        return 1;
    if (note())
        printf("    %s answers %" PRIu64 ", not %" PRId64 "\n", name, answer, number);
    return 0;
}

/* Gives 1 where the list and its guards are as they must be after the call. */
static int holds(const struct list *list)
{
    size_t before = (size_t)(list->copy - list->block);
    size_t i;

    for (i = 0; i < list->block_len; i++) {
        int is_guard = i < before || i >= before + list->len;
        uint8_t byte = is_guard ? list->guard : list->after[i - before];

        if (list->block[i] == byte)
            continue;
        if (note())
            printf("    %s (%zu bytes) has %02x at byte %td, not %02x%s\n", list->name,
                   list->len, list->block[i], (ptrdiff_t)i - (ptrdiff_t)before, byte,
                   is_guard ? ": that is outside" : "");
        return 0;
    }
    return 1;
}

/* Makes the call of a case in each pass, until something differs. */
static int check(const struct test *test, char **field)
{
    struct list list[MOST_LISTS];
    int right = 1;
    int pass;
    size_t i;

    test->read_lists(field, list);
    for (pass = 0; right && pass < PASSES; pass++) {
        for (i = 0; i < test->lists; i++)
            lend(&list[i], pass);
        right = test->call(field, list);
        for (i = 0; i < test->lists; i++)
            right &= holds(&list[i]);
    }
    for (i = 0; i < test->lists; i++)
        release(&list[i]);
    return right;
}

/* Parts a line at its tabs. */
static void part(char *line, char **field, size_t fields)
{
    size_t n;

    for (n = 0; n < fields; n++) {
        field[n] = line;
        line += strcspn(line, "\t");
        if ((n + 1 == fields) != (*line == '\0'))
            leave("it has too few fields or too many");
        *line++ = '\0';
    }
}

int run_cases(const struct test *test, int argc, char **argv)
{
    char **field = space(NULL, test->fields * sizeof *field);
    size_t depth = 0, most = 0;
    char *line;

    if (argc > 1) {
        most = (size_t)number_of(argv[1]);
        paint_stack();
    }
    /* What was found is kept where a later call crashes. */
    setvbuf(stdout, NULL, _IOLBF, 0);
    while ((line = next_line())) {
        char *text;

        if (*line == '#')
            continue;
        text = space(NULL, strlen(line) + 1);
        line_text = strcpy(text, line);
        part(line, field, test->fields);
        cases++;
        if (!check(test, field))
            wrong++;
        free(text);
    }
    free(field);
    printf("%zu cases, %zu wrong\n", cases, wrong);
    if (measured) {
        depth = depth_of_stack();
        printf("%zu bytes of stack, %zu at most\n", depth, most);
    }
    return cases == 0 || wrong > 0 || depth > most;
}
