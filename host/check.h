/*
 * Whether an hour can be settled.
 */
#ifndef CHECK_H
#define CHECK_H

#include "job.h"
#include "say.h"

/* Prints what is in the file of that name, or refuses it. */
enum status check_hour(struct job *job, const char *name);

#endif
