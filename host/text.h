/*
 * A text, read line by line and word by word. Blanks part words, and a # begins
 * a comment, which ends with its line.
 */
#ifndef TEXT_H
#define TEXT_H

#include <stddef.h>
#include <stdint.h>

#define BLANKS " \t\r\v\f" /* between words */
#define LONGEST_LINE 4000
#define LONGEST_TEXT ((size_t)1 << 20) /* bytes: 1 MiB */

struct text {
    const char *name;
    const uint8_t *bytes; /* all of it */
    size_t len, at;       /* its length, and where the next line begins */
    size_t line_number;   /* of the line at hand, from 1 */
    char line[LONGEST_LINE + 1];
    char *rest;   /* what of the line hasn't been taken yet */
    int is_quiet; /* nothing is said of what is wrong */
};

/* What takes a line, word by word; it gives 0 where it can't. */
typedef int take_line_function(struct text *text, void *into);

/*
 * Calls `take` for each line of a text that has a word in it. Gives 1 where all
 * lines were taken. Otherwise it gives 0, and what is wrong has been said.
 */
int take_text(struct text *text, take_line_function *take, void *into);

/*
 * What a file seems to be, and what to do, where its first bytes are those of
 * something else than a plain text or an exercise file: UTF-16, or a packed
 * file. NULL where they aren't.
 */
const char *why_no_text(const uint8_t *bytes, size_t len);

/*
 * Whether bytes may be a text. Otherwise it gives 0, and has said that the text
 * is too long, or what it seems to be. A file is read one byte further than the
 * longest text.
 */
int may_be_text(const char *name, const uint8_t *bytes, size_t len);

/* Reads the file of that name, and takes it as a text. */
int read_text(struct text *text, const char *name, take_line_function *take, void *into);

/* Whether the first bytes may be a text's: none of them steers but tabs and line ends. */
int looks_like_text(const uint8_t *bytes, size_t len);

/*
 * Copies the next line, without its end, to be taken; there is one while `at` is
 * below `len`. Gives 0 where it can't be a line of a text, and has said so.
 */
int next_line(struct text *text);

/* Cuts the next word off the line at hand; NULL where there is none. */
const char *next_word(struct text *text);

/*
 * Says what is wrong with a word of the line at hand, and where it has a
 * character that isn't plain, such as a no-break space, also that; gives 0.
 */
int fault(const struct text *text, const char *word, const char *why);

/* Says that a line is missing in the text, and what to write; gives 0. */
int missing(const struct text *text, const char *line, const char *form);

#endif
