#include "write.h"

#include "files.h"
#include "place.h"
#include "refusals.h"

#include <inttypes.h>
#include <stdio.h>
#include <string.h>
#include <sys/stat.h>

#define LONGEST_PATH 4096
#define TEXT_END ".text"
#define FILE_END ".exercise"

/* ---- the file's name */

/* Writes the name of the file beside a text. Gives 0 where there is none, and has said so. */
static int name_beside(const char *text, char path[LONGEST_PATH])
{
    size_t len = strlen(text), end = strlen(TEXT_END);

    if (is_standard(text))
        return complain(text, "standard input has no name for its file; give one with -o") == 0;
    if (len > end && strcmp(text + len - end, TEXT_END) == 0)
        len -= end;
    if (len + strlen(FILE_END) >= LONGEST_PATH)
        return complain(text, "too long a name; give the file's with -o") == 0;
    snprintf(path, LONGEST_PATH, "%.*s%s", (int)len, text, FILE_END);
    return 1;
}

/* ---- what stands there */

static int is_regular(const char *name)
{
    struct stat about;

    return !is_standard(name) && stat(name, &about) == 0 && S_ISREG(about.st_mode);
}

/*
 * Whether a file may be written under that name: there is none of it, or it is
 * empty, an exercise file, or something that keeps no bytes. Otherwise it gives
 * 0, and has said so.
 */
static int may_be_replaced(const char *name)
{
    uint8_t file[WZ_LONGEST_FILE + 1]; /* a byte more, so that a longer file is none */
    size_t len;

    if (!is_regular(name))
        return 1;
    if (!read_file(name, file, sizeof file, &len))
        return 0;
    return len == 0 || is_exercise_file(file, len) ||
           complain(name, "not an exercise file; give another name, or remove it first") == 0;
}

/* ---- the file */

static void say_count(size_t count, const char *of)
{
    fprintf(stderr, "%zu %s%s, ", count, of, plural(count));
}

/* Says what was written. */
static void say_written(const char *file, const struct hour *hour)
{
    const struct exercise *exercise = &hour->exercise;

    begin_message(is_standard(file) ? "standard output" : file);
    say_count((size_t)exercise->participants, "participant");
    say_count((size_t)exercise->locations, "location");
    say_count(exercise->rows.count, "row");
    say_count(exercise->transactions.count, "transaction");
    fprintf(stderr, "edition %" PRId64 ", %zu bytes\n", exercise->edition, hour->len);
}

/*
 * Refuses the hour of a text. Where the file would go to standard output,
 * nothing else is printed there.
 */
static enum status refuse_text(struct job *job, const struct hour *hour, const char *file)
{
    char place[PLACE_LEN];

    if (!is_standard(file))
        return refuse_hour(&job->answer, hour, hour->refusal);
    find_place(hour, hour->refusal, place);
    return say_refusal(hour->name, hour->refusal, place);
}

enum status write_hour(struct job *job, const char *name)
{
    struct hour hour;
    char beside[LONGEST_PATH];
    const char *file = job->output ? job->output : beside;

    if (!job->output && !name_beside(name, beside))
        return STATUS_FAULT;
    if (strcmp(name, file) == 0 && !is_standard(name))
        return complain(file, "the file would take the place of its text; give it another name");
    if (!read_hour_text(job, name, &hour))
        return STATUS_FAULT;
    if (hour.refusal != WZ_OK)
        return refuse_text(job, &hour, file);
    if (!may_be_replaced(file) || !write_file(file, hour.file, hour.len))
        return STATUS_FAULT;
    say_written(file, &hour);
    return STATUS_DONE;
}
