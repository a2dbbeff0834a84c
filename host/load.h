/*
 * A distributor's load assigned, from a load assignment in its text form.
 */
#ifndef LOAD_H
#define LOAD_H

#include "assignment.h"
#include "job.h"
#include "say.h"

/* What the engine assigns: kW at each bus, participant by participant. */
struct assigned {
    size_t buses;
    uint8_t kw[WZ_NUMBER * WZ_MOST_PARTICIPANTS * WZ_MOST_BUSES];
};

/* Asks the engine. Gives WZ_OK, or the refusal. */
uint32_t assign(const struct assignment *given, struct assigned *assigned);

/*
 * Writes where in its text an assignment is refused, as far as the engine shows
 * it, or what to look at.
 */
void find_load_place(const struct assignment *given, const struct load_lines *lines,
                     uint32_t refusal, char place[], size_t room);

/*
 * Assigns the load of the file of that name. Prints a line for each participant
 * that gets any, with its kW at each bus, and one of totals; or refuses.
 */
enum status assign_load(struct job *job, const char *name);

#endif
