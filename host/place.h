/*
 * Where the engine refuses an hour, in words: what it answers to wz_find_cause
 * or wz_find_list_cause. Rules and ranges are the engine's.
 */
#ifndef PLACE_H
#define PLACE_H

#include "hour.h"

#define PLACE_LEN 300

/*
 * Writes where the hour is refused with that number, and what might stand
 * there. It is empty where the engine tells of another refusal.
 */
void find_place(const struct hour *hour, uint32_t refusal, char place[PLACE_LEN]);

#endif
