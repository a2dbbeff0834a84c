/*
 * What the program says beside its answer, on standard error, and its exit
 * statuses.
 */
#ifndef SAY_H
#define SAY_H

#include <stddef.h>
#include <stdio.h>

/* What the program is called in its messages. */
#define PROGRAM "wunzelihle"

/* The worse is the larger. */
enum status {
    STATUS_DONE = 0,
    STATUS_REFUSED = 1, /* the engine refused, or a sheet differs */
    STATUS_FAULT = 2    /* wrong words, or a file that can't be used */
};

enum status worse(enum status one, enum status other);

/*
 * Prints a word that came from outside. What would steer a terminal is printed
 * as a question mark.
 */
void print_word(FILE *to, const char *word);

/* What ends a word that there are so many of: "s", or nothing where there is one. */
const char *plural(size_t count);

/* Begins a message about a word or a file: "wunzelihle: hour.text: ". */
void begin_message(const char *about);

/*
 * Says why a file can't be used, in the form of printf, and keeps the message
 * without its beginning: the last one is what last_message gives, empty where
 * there was none. What would steer a terminal is a question mark in either.
 */
void say_fault(const char *about, const char *form, ...);
const char *last_message(void);

/* Says what is wrong with a word or a file; gives STATUS_FAULT. */
enum status complain(const char *word, const char *why);

/*
 * Writes out what was printed on standard output, where there is no fault yet.
 * Gives the status, or STATUS_FAULT where it can't be written, and has then
 * said so.
 */
enum status flushed(enum status status);

#endif
