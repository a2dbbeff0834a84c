#include "hour.h"

#include "files.h"

/* Room for the bytes of a file, one more than the longest text has. */
static uint8_t bytes[LONGEST_TEXT + 1];

int is_exercise_file(const uint8_t *file, size_t len)
{
    uint8_t cause[WZ_NUMBER * WZ_CAUSE_NUMBERS];
    int64_t part;

    wz_find_cause(file, len, cause, sizeof cause);
    part = wz_get(cause, WZ_CAUSE_PART);
    return wz_get(cause, WZ_CAUSE_REFUSAL) == WZ_OK || part == WZ_PART_SURPLUS ||
           part == WZ_PART_SHARE;
}

/* Says how numbers were read that stand in a text without their unit. */
static void say_units(const struct hour *hour)
{
    if (hour->lines.without_mark != 0) {
        begin_message(called(hour->name));
        fprintf(stderr, "prices without $ are read as mills, first in line %zu\n",
                hour->lines.without_mark);
    }
    if (hour->lines.without_unit != 0) {
        begin_message(called(hour->name));
        fprintf(stderr, "power without a unit is read as kW, first in line %zu\n",
                hour->lines.without_unit);
    }
}

/* Takes the bytes as a text, and writes its exercise file in memory. */
static int take_hour_text(struct hour *hour, size_t len)
{
    static uint8_t file[WZ_LONGEST_FILE];

    hour->is_text = 1;
    hour->is_cut = 0;
    if (!may_be_text(hour->name, bytes, len) ||
        !take_exercise_text(hour->name, bytes, len, &hour->exercise, &hour->lines, &hour->names))
        return 0;
    say_units(hour);
    hour->file = file;
    hour->len = 0;
    hour->refusal = write_exercise(&hour->exercise, file, &hour->len);
    return 1;
}

/* Reads the bytes of a file. */
static int begin_hour(const struct job *job, const char *name, struct hour *hour, size_t *len)
{
    hour->name = name;
    hour->names = job->names;
    return read_file(name, bytes, sizeof bytes, len);
}

int read_hour(const struct job *job, const char *name, struct hour *hour)
{
    size_t len;

    if (!begin_hour(job, name, hour, &len))
        return 0;
    if (!is_exercise_file(bytes, len) && looks_like_text(bytes, len))
        return take_hour_text(hour, len);
    hour->is_text = 0;
    hour->refusal = WZ_OK;
    hour->file = bytes;
    hour->len = len;
    hour->is_cut = len == sizeof bytes;
    return 1;
}

int read_hour_text(const struct job *job, const char *name, struct hour *hour)
{
    size_t len;

    if (!begin_hour(job, name, hour, &len))
        return 0;
    if (is_exercise_file(bytes, len))
        return complain(called(name), "an exercise file already; 'wunzelihle show' prints it as "
                                      "a text") == 0;
    return take_hour_text(hour, len);
}
