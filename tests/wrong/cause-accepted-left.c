/* Of an accepted file nothing is written. */
#define MISTAKE ACCEPTED_LEFT
#include "cause.h"
