#include "help.h"

#include "wunzelihle.h"

#include <ctype.h>
#include <inttypes.h>
#include <stdio.h>
#include <string.h>

/* ---- pages */

#define STATUSES                                                                                  \
    "Status: 0 done (compare: all agree), 1 refused (compare: they differ), 2 a mistake in\n"     \
    "the command, or a file that can't be used. The answer is on standard output, all\n"          \
    "else on standard error.\n"

/* Prints a command with its words, and its summary in a column. */
static void print_summary(FILE *to, const char *name, const char *words, const char *summary)
{
    char all[80];

    snprintf(all, sizeof all, "%s%s%s", name, *words ? " " : "", words);
    fprintf(to, "  " PROGRAM " %-24s %s\n", all, summary);
}

void print_overview(FILE *to)
{
    size_t i;

    fputs("wunzelihle settles one hour of a practice power market: what each participant\n"
          "pays for congestion and for losses, and what it gets back, to the cent.\n\n",
          to);
    for (i = 0; i < command_count; i++)
        print_summary(to, commands[i].name, commands[i].words, commands[i].summary);
    print_summary(to, "--version", "", "the version");
    fputs("\nFILE is an exercise file, or an hour written as text; - is standard input. Options\n"
          "stand before or after the files, and -- ends them.\n" STATUSES
          "'wunzelihle help settle' says more about settle, and so for each command.\n",
          to);
}

static void print_option(const struct option_words *option)
{
    char words[40];

    snprintf(words, sizeof words, "%s%s%s", option->word, option->value ? " " : "",
             option->value ? option->value : "");
    printf("  %-14s%s\n", words, option->summary);
}

void print_page(const struct command *command)
{
    size_t i;

    printf("usage: " PROGRAM " %s%s %s\n\n", command->name,
           command->options ? " [OPTION..]" : "", command->words);
    printf("%c%s.\n\n%s%s", toupper((unsigned char)command->summary[0]), command->summary + 1,
           command->page, *command->page ? "\n" : "");
    for (i = 0; i < OPTIONS; i++) {
        if (command->options & BIT(i))
            print_option(&options[i]);
    }
    printf("  %-14s%s\n\n" STATUSES, "-h, --help", "print this");
}

enum status help_words(struct job *job)
{
    const struct command *command;

    if (job->count == 0) {
        print_overview(stdout);
        return STATUS_DONE;
    }
    command = find_command(job->words[0]);
    if (!command)
        return unknown_command(job->words[0]);
    print_page(command);
    return STATUS_DONE;
}

void print_version(void)
{
    uint32_t version = wz_version();

    printf(PROGRAM " %" PRIu32 ".%" PRIu32 ".%" PRIu32 "\n", version / 10000, version / 100 % 100,
           version % 100);
}

/* ---- mistakes */

enum status slip(const struct command *command, const char *word, const char *why)
{
    begin_message(word);
    fprintf(stderr, "%s; see '" PROGRAM " help%s%s'\n", why, command ? " " : "",
            command ? command->name : "");
    return STATUS_FAULT;
}

#define LONGEST_WORD 20

static int is_same_letter(char one, char other)
{
    return tolower((unsigned char)one) == tolower((unsigned char)other);
}

/*
 * How many letters have to be changed, added or left out to make one word of
 * the other, capital letters or not; of words too long for that, more than any
 * that is near.
 */
static size_t distance(const char *one, const char *other)
{
    size_t row[LONGEST_WORD + 1], i, j;

    if (strlen(one) > LONGEST_WORD || strlen(other) > LONGEST_WORD)
        return LONGEST_WORD;
    for (j = 0; j <= strlen(other); j++)
        row[j] = j;
    for (i = 1; i <= strlen(one); i++) {
        size_t corner = row[0]; /* of the row before */

        row[0] = i;
        for (j = 1; j <= strlen(other); j++) {
            size_t changed = corner + !is_same_letter(one[i - 1], other[j - 1]);

            corner = row[j];
            row[j] = (row[j] < row[j - 1] ? row[j] : row[j - 1]) + 1;
            row[j] = changed < row[j] ? changed : row[j];
        }
    }
    return row[strlen(other)];
}

/* The word of others that is nearest, NULL where none is near. Dashes before it don't count. */
static const char *nearest(const char *word, const char *const *others, size_t count)
{
    const char *found = NULL;
    size_t least = 3, i;

    word += strspn(word, "-");
    for (i = 0; i < count; i++) {
        const char *letters = others[i] + strspn(others[i], "-");
        size_t far = distance(word, letters);

        if (far < least && far < strlen(letters) && far < strlen(word)) {
            least = far;
            found = others[i];
        }
    }
    return found;
}

enum status slip_near(const struct command *command, const char *word, const char *why,
                      const char *const *others, size_t count)
{
    const char *near = nearest(word, others, count);
    char all[100];

    snprintf(all, sizeof all, near ? "%s, perhaps '%s'" : "%s", why, near);
    return slip(command, word, all);
}

enum status unknown_command(const char *word)
{
    const char *names[MOST_COMMANDS];
    size_t i;

    for (i = 0; i < command_count; i++)
        names[i] = commands[i].name;
    return slip_near(NULL, word, "no such command", names, command_count);
}
