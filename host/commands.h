/*
 * The commands and their options.
 */
#ifndef COMMANDS_H
#define COMMANDS_H

#include "job.h"
#include "say.h"

/* The options, and those that a command takes as a sum of bits. */
enum option {
    OPTION_CSV,
    OPTION_JSON,
    OPTION_NAMES,
    OPTION_OUTPUT,
    OPTION_CENTS,
    OPTION_DOLLARS,
    OPTIONS
};
#define BIT(option) (1u << (option))

struct option_words {
    const char *word;
    const char *value; /* what follows it, or NULL */
    const char *summary;
};

extern const struct option_words options[OPTIONS];

struct command {
    const char *name;
    const char *words;   /* that follow it, as the help has them */
    const char *summary; /* a line of the overview */
    const char *page;    /* what else its own page tells */
    unsigned options;
    size_t least, most; /* how many words it takes */
    const char *needed; /* what to give where there are too few */
    int has_numbers;    /* its words are numbers, and none of them a file */
    enum status (*act)(struct job *job);
    enum status (*act_on)(struct job *job, const char *word); /* or for each word */
};

#define MOST_COMMANDS 16
extern const struct command commands[];
extern const size_t command_count;

/* The command of that name, or NULL. */
const struct command *find_command(const char *name);

#endif
