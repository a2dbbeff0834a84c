#include "text.h"

#include "files.h"
#include "say.h"

#include <string.h>

#define LONGEST_SHOWN 400 /* bytes of a word in a message */

/* What some editors put before a text's first letter. */
#define MARK "\xef\xbb\xbf"

/* Whether all characters of a word are plain: ASCII, and to be seen. */
static int is_plain(const char *word)
{
    while (*word >= ' ' && *word <= '~')
        word++;
    return *word == '\0';
}

int fault(const struct text *text, const char *word, const char *why)
{
    if (text->is_quiet)
        return 0;
    say_fault(called(text->name), "line %zu: %.*s: %s%s", text->line_number, LONGEST_SHOWN, word,
              why, is_plain(word) ? "" : "; a character in it isn't plain, so type it again");
    return 0;
}

int missing(const struct text *text, const char *line, const char *form)
{
    say_fault(called(text->name), "there is no line '%s'; %s", line, form);
    return 0;
}

int next_line(struct text *text)
{
    size_t len = 0;

    text->line_number++;
    while (text->at < text->len && text->bytes[text->at] != '\n') {
        uint8_t c = text->bytes[text->at++];

        if (c == '\0')
            return fault(text, "a zero byte", "write plain text");
        if (len == LONGEST_LINE)
            return fault(text, "too long", "a line has up to 4000 bytes");
        text->line[len++] = (char)c;
    }
    text->line[len] = '\0';
    text->at++; /* past the line's end */
    text->rest = text->line;
    if (text->line_number == 1 && strncmp(text->line, MARK, strlen(MARK)) == 0)
        text->rest += strlen(MARK);
    return 1;
}

/* Cuts off a comment; gives whether there are words before it. */
static int has_words(struct text *text)
{
    text->rest[strcspn(text->rest, "#")] = '\0';
    return text->rest[strspn(text->rest, BLANKS)] != '\0';
}

const char *next_word(struct text *text)
{
    char *word = text->rest + strspn(text->rest, BLANKS);
    char *after = word + strcspn(word, BLANKS);

    text->rest = *after ? after + 1 : after;
    *after = '\0';
    return *word ? word : NULL;
}

int take_text(struct text *text, take_line_function *take, void *into)
{
    text->line_number = 0;
    text->at = 0;
    while (text->at < text->len) {
        if (!next_line(text) || (has_words(text) && !take(text, into)))
            return 0;
    }
    return 1;
}

const char *why_no_text(const uint8_t *bytes, size_t len)
{
    if (len >= 2 && (memcmp(bytes, "\xff\xfe", 2) == 0 || memcmp(bytes, "\xfe\xff", 2) == 0))
        return "it seems to be a text in UTF-16; save it as UTF-8";
    if (len >= 4 && memcmp(bytes, "PK\x03\x04", 4) == 0)
        return "it seems to be a packed file, such as .xlsx or .zip; save a sheet as CSV, and a "
               "text as plain text";
    return NULL;
}

int may_be_text(const char *name, const uint8_t *bytes, size_t len)
{
    const char *why = why_no_text(bytes, len);

    if (!why && len > LONGEST_TEXT)
        why = "longer than 1 MiB, and a text has up to that; cut it";
    return !why || complain(called(name), why) == STATUS_DONE;
}

int read_text(struct text *text, const char *name, take_line_function *take, void *into)
{
    static uint8_t bytes[LONGEST_TEXT + 1];

    *text = (struct text){.name = name, .bytes = bytes};
    return read_file(name, bytes, sizeof bytes, &text->len) &&
           may_be_text(name, bytes, text->len) && take_text(text, take, into);
}

int looks_like_text(const uint8_t *bytes, size_t len)
{
    size_t i;

    for (i = 0; i < len && i < 64; i++) {
        if (bytes[i] < '\t' || (bytes[i] > '\r' && bytes[i] < ' ') || bytes[i] == 0x7f)
            return 0;
    }
    return len > 0;
}
