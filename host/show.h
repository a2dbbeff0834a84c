/*
 * An exercise file printed in the text form of its hour, or as a table.
 */
#ifndef SHOW_H
#define SHOW_H

#include "job.h"
#include "say.h"

/* Prints the file of that name, or refuses it. */
enum status show_hour(struct job *job, const char *name);

#endif
