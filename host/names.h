/*
 * Names of participants and locations: lines such as `participant 0 is Town` or
 * `location 1 is South End`, in an hour's text or in a file of their own.
 */
#ifndef NAMES_H
#define NAMES_H

#include "lists.h"
#include "text.h"

enum named { PARTICIPANT, LOCATION, NAMED };

/* What each is called in a line. */
extern const char *const named_word[NAMED];

#define LONGEST_NAME 40
#define MOST_NAMED WZ_MOST_PARTICIPANTS /* and as many locations */

struct names {
    char of[NAMED][MOST_NAMED][LONGEST_NAME + 1]; /* empty where there is none */
    size_t line[NAMED][MOST_NAMED];               /* where the name is given, from 1 */
};

/* Whether there is a name of such. */
int has_names(const struct names *names, enum named named);

/* The name of a number, empty where it has none. */
const char *name_of(const struct names *names, enum named named, int64_t number);

/* The number that has the name; gives 0 where there is none. */
int find_name(const struct names *names, enum named named, const char *name, int64_t *number);

/* The same with or without capital letters, where one alone has the name so. */
int find_name_like(const struct names *names, enum named named, const char *name, int64_t *number);

/* Whether a word stands for the sums in a sheet, and so can't be a participant's name. */
int is_total(const char *word);

/* Adds the names of others; where both name a number, the others do. */
void add_names(struct names *names, const struct names *others);

/*
 * Which of them a line's first word begins to name: PARTICIPANT, LOCATION, or
 * NAMED where it begins another line.
 */
enum named named_by(const char *word);

/*
 * Takes the rest of a naming line. Gives 0 where it isn't in its form, and has
 * said so.
 */
int take_name(struct text *text, enum named named, struct names *names);

/*
 * Takes the naming lines of a text and passes over all others, also those that
 * aren't in their form; says nothing.
 */
void find_names(const char *name, const uint8_t *bytes, size_t len, struct names *names);

/*
 * Reads the naming lines of the file of that name, and passes over others.
 * Gives 0 where it can't, and has said why.
 */
int read_names(const char *name, struct names *names);

/*
 * Writes a number and its name: "0 Town", or "0" where it has none. `width` is
 * how wide the number is at least.
 */
#define LABEL_LEN (sizeof "-9223372036854775808 " + LONGEST_NAME)
void write_label(char label[LABEL_LEN], const struct names *names, enum named named,
                 int64_t number, int width);

/* How many letters of a text there are to be seen: characters of UTF-8, not bytes. */
size_t letters_in(const char *text);

#endif
