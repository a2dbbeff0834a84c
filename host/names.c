#include "names.h"

#include "files.h"
#include "say.h"

#include <inttypes.h>
#include <stdio.h>
#include <string.h>
#include <strings.h>

const char *const named_word[NAMED] = {[PARTICIPANT] = "participant", [LOCATION] = "location"};

int has_names(const struct names *names, enum named named)
{
    size_t i = 0;

    while (i < MOST_NAMED && names->of[named][i][0] == '\0')
        i++;
    return i < MOST_NAMED;
}

const char *name_of(const struct names *names, enum named named, int64_t number)
{
    return number >= 0 && number < MOST_NAMED ? names->of[named][number] : "";
}

int find_name(const struct names *names, enum named named, const char *name, int64_t *number)
{
    int64_t i = 0;

    while (i < MOST_NAMED && strcmp(names->of[named][i], name) != 0)
        i++;
    *number = i;
    return i < MOST_NAMED;
}

int find_name_like(const struct names *names, enum named named, const char *name, int64_t *number)
{
    int64_t i, last = MOST_NAMED;
    int found = 0;

    if (find_name(names, named, name, number))
        return 1;
    for (i = 0; i < MOST_NAMED; i++) {
        if (strcasecmp(names->of[named][i], name) == 0) {
            last = i;
            found++;
        }
    }
    *number = found == 1 ? last : MOST_NAMED;
    return found == 1;
}

int is_total(const char *word)
{
    static const char *const words[] = {"total", "totals", "sum"};
    size_t i = 0;

    while (i < sizeof words / sizeof *words && strcasecmp(word, words[i]) != 0)
        i++;
    return i < sizeof words / sizeof *words;
}

void add_names(struct names *names, const struct names *others)
{
    size_t n, i;

    for (n = 0; n < NAMED; n++) {
        for (i = 0; i < MOST_NAMED; i++) {
            if (others->of[n][i][0] != '\0')
                memcpy(names->of[n][i], others->of[n][i], sizeof names->of[n][i]);
        }
    }
}

enum named named_by(const char *word)
{
    enum named named = PARTICIPANT;

    while (named < NAMED && strcmp(word, named_word[named]) != 0)
        named++;
    return named;
}

/* ---- a naming line */

/* Says what is wrong with a word, and how such a line is written; gives 0. */
static int wrong_name(const struct text *text, enum named named, const char *word, const char *why)
{
    char all[160];

    snprintf(all, sizeof all, "%s '%s 0 is %s'", why, named_word[named],
             named == PARTICIPANT ? "Town" : "South");
    return fault(text, word, all);
}

/* Reads the number and the word "is". */
static int read_whose(struct text *text, enum named named, int64_t *number)
{
    const char *word = next_word(text);

    if (!word)
        return wrong_name(text, named, "too short", "write it as");
    if (read_number(word, number) != NULL || *number < 0 || *number >= MOST_NAMED)
        return wrong_name(text, named, word, "not a number from 0 to 63; write it as");
    word = next_word(text);
    if (!word || strcmp(word, "is") != 0)
        return wrong_name(text, named, word ? word : "too short", "write it as");
    return 1;
}

/* Reads the words up to the line's end, a blank between them. */
static int read_words(struct text *text, enum named named, char name[LONGEST_NAME + 1])
{
    const char *word = next_word(text);
    size_t len = 0, more;

    if (!word)
        return wrong_name(text, named, "too short", "write it as");
    for (; word; word = next_word(text)) {
        more = strlen(word);
        if (len + (len > 0) + more > LONGEST_NAME)
            return fault(text, word, "a name has up to 40 bytes");
        if (len > 0)
            name[len++] = ' ';
        memcpy(name + len, word, more + 1);
        len += more;
    }
    return 1;
}

/* Why a name can't be given, or NULL where it can. */
static const char *why_no_name(const struct names *names, enum named named, int64_t number,
                               const char *name)
{
    int64_t other;
    size_t i;

    for (i = 0; name[i] != '\0'; i++) {
        if ((unsigned char)name[i] < ' ' || name[i] == 0x7f)
            return "a name can't have control characters";
    }
    if (name[strspn(name, "-0123456789")] == '\0')
        return "a number alone is no name";
    if (named == PARTICIPANT && is_total(name))
        return "it stands for the sums in a sheet; choose another name";
    if (find_name(names, named, name, &other))
        return "there is such a name already; keep one of them";
    if (names->of[named][number][0] != '\0')
        return "there is a name for it already; keep one of them";
    return NULL;
}

int take_name(struct text *text, enum named named, struct names *names)
{
    char name[LONGEST_NAME + 1];
    const char *why;
    int64_t number;

    if (!read_whose(text, named, &number) || !read_words(text, named, name))
        return 0;
    why = why_no_name(names, named, number, name);
    if (why)
        return fault(text, name, why);
    memcpy(names->of[named][number], name, sizeof name);
    names->line[named][number] = text->line_number;
    return 1;
}

/* ---- many of them */

static int take_or_pass(struct text *text, void *into)
{
    enum named named = named_by(next_word(text));

    return named == NAMED || take_name(text, named, into) || text->is_quiet;
}

void find_names(const char *name, const uint8_t *bytes, size_t len, struct names *names)
{
    struct text text = {.name = name, .bytes = bytes, .len = len, .is_quiet = 1};

    memset(names, 0, sizeof *names);
    take_text(&text, take_or_pass, names);
}

int read_names(const char *name, struct names *names)
{
    struct text text;

    memset(names, 0, sizeof *names);
    if (!read_text(&text, name, take_or_pass, names))
        return 0;
    return has_names(names, PARTICIPANT) || has_names(names, LOCATION) ||
           complain(called(name), "it has no names; a name stands in a line of its own, such as "
                                  "'participant 0 is Town'") == STATUS_DONE;
}

/* ---- in print */

void write_label(char label[LABEL_LEN], const struct names *names, enum named named,
                 int64_t number, int width)
{
    const char *name = name_of(names, named, number);

    snprintf(label, LABEL_LEN, "%*" PRId64 "%s%s", width, number, *name ? " " : "", name);
}

size_t letters_in(const char *text)
{
    size_t letters = 0;

    for (; *text; text++)
        letters += ((unsigned char)*text & 0xc0) != 0x80; /* which go on with a letter */
    return letters;
}
