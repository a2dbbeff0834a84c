/*
 * The engine's refusals, told to people.
 */
#ifndef REFUSALS_H
#define REFUSALS_H

#include "hour.h"
#include "job.h"
#include "say.h"

/*
 * Says on standard error that something is refused, by its name, with the place
 * where there is one, and the sentence. Gives STATUS_REFUSED.
 */
enum status say_refusal(const char *name, uint32_t refusal, const char *place);

/* Prints the refusal as the answer, and says it, too. Gives the status. */
enum status refuse(struct answer *answer, const char *name, uint32_t refusal, const char *place);

/* The same of an hour, with the place that the engine tells of. */
enum status refuse_hour(struct answer *answer, const struct hour *hour, uint32_t refusal);

#endif
