/*
 * A tutor's sheet beside the statement of an hour.
 */
#ifndef COMPARE_H
#define COMPARE_H

#include "job.h"
#include "say.h"

/*
 * Compares the sheet, the second word, with the statement of the file, the
 * first. Prints the cells that differ, or that all agree.
 */
enum status compare_words(struct job *job);

#endif
