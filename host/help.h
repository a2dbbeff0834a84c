/*
 * What the program tells of itself.
 */
#ifndef HELP_H
#define HELP_H

#include "commands.h"

/* Prints the overview of the commands. */
void print_overview(FILE *to);

/* Prints a command's own page. */
void print_page(const struct command *command);

/* The command `help`. */
enum status help_words(struct job *job);

/* Prints the version of the archive that is linked. */
void print_version(void);

/*
 * Says what is wrong with a word of the command line, in one line, and where to
 * read on: on the page of the command, or where it is NULL in the overview.
 * Gives STATUS_FAULT.
 */
enum status slip(const struct command *command, const char *word, const char *why);

/* The same where the word may be meant for one of others, or is nothing like them. */
enum status slip_near(const struct command *command, const char *word, const char *why,
                      const char *const *others, size_t count);

/* Says that there is no such command. */
enum status unknown_command(const char *word);

#endif
