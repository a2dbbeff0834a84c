/*
 * An hour by the name of its file: an exercise file, or an hour's text, which
 * is written in memory.
 */
#ifndef HOUR_H
#define HOUR_H

#include "exercise_text.h"
#include "job.h"
#include "say.h"

struct hour {
    const char *name;
    const uint8_t *file; /* the exercise file */
    size_t len;
    int is_cut; /* the file goes on after these bytes */
    int is_text;
    uint32_t refusal;         /* of a text: why it can't be written, or WZ_OK */
    struct exercise exercise; /* of a text, as the next */
    struct lines lines;
    struct names names; /* also of an exercise file, by the option */
};

/* Reads the file. Gives 1, or 0 where it can't be used; it has then said why. */
int read_hour(const struct job *job, const char *name, struct hour *hour);

/* The same for a file that has to be a text. */
int read_hour_text(const struct job *job, const char *name, struct hour *hour);

/* Whether bytes are an exercise file: the engine accepts it up to its last transaction. */
int is_exercise_file(const uint8_t *file, size_t len);

#endif
