/*
 * An amount split over shares.
 */
#ifndef SPLIT_H
#define SPLIT_H

#include "job.h"
#include "say.h"

/* Splits the first word over the others and prints the parts, or refuses. */
enum status split_words(struct job *job);

#endif
