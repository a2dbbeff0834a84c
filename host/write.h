/*
 * An exercise file written from an hour's text.
 */
#ifndef WRITE_H
#define WRITE_H

#include "job.h"
#include "say.h"

/*
 * Writes the file of a text, or refuses it. The file is the one that the job
 * names, or stands beside the text: hour.exercise of hour.text. It is opened
 * only when all of it is there.
 */
enum status write_hour(struct job *job, const char *name);

#endif
