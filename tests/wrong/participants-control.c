/* No mistake: must be accepted, so that the others are rejected for theirs. */
#define MISTAKE NONE
#include "participants.h"
