#include "say.h"

#include <errno.h>
#include <stdarg.h>
#include <string.h>

enum status worse(enum status one, enum status other)
{
    return one > other ? one : other;
}

/* Whether a character would steer a terminal. */
static int steers(char c)
{
    return (unsigned char)c < 0x20 || c == 0x7f;
}

void print_word(FILE *to, const char *word)
{
    for (; *word; word++)
        fputc(steers(*word) ? '?' : *word, to);
}

const char *plural(size_t count)
{
    return count == 1 ? "" : "s";
}

void begin_message(const char *about)
{
    fputs(PROGRAM ": ", stderr);
    print_word(stderr, *about ? about : "an empty word");
    fputs(": ", stderr);
}

static char message[1000]; /* the last that was said of a fault */

void say_fault(const char *about, const char *form, ...)
{
    va_list words;
    char *c;

    va_start(words, form);
    vsnprintf(message, sizeof message, form, words);
    va_end(words);
    for (c = message; *c; c++) {
        if (steers(*c))
            *c = '?';
    }
    begin_message(about);
    fprintf(stderr, "%s\n", message);
}

const char *last_message(void)
{
    return message;
}

enum status complain(const char *word, const char *why)
{
    say_fault(word, "%s", why);
    return STATUS_FAULT;
}

enum status flushed(enum status status)
{
    char why[200];

    if (status == STATUS_FAULT)
        return status;
    errno = 0;
    if (fflush(stdout) == 0 && !ferror(stdout))
        return status;
    snprintf(why, sizeof why, "%s; make room for the answer and try again",
             errno ? strerror(errno) : "a write failed");
    return complain("standard output", why);
}
