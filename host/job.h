/*
 * What the command line asks for.
 */
#ifndef JOB_H
#define JOB_H

#include "answer.h"
#include "names.h"

/* The unit of a sheet's amounts; UNIT_OF_SHEET where the sheet itself shows it. */
enum unit { UNIT_OF_SHEET, CENTS, DOLLARS };

struct job {
    const struct command *command;
    char **words;     /* what the command is about; NULL after the last */
    size_t count;     /* of the words */
    unsigned options; /* those that are set, as bits */
    enum unit unit;
    const char *output;     /* the file that is written, or NULL */
    const char *names_file; /* or NULL */
    struct names names;     /* of that file */
    struct answer answer;
};

#endif
