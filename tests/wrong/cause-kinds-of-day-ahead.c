/* Kinds up to 5 are said to be right in real time. */
#define MISTAKE KINDS_OF_DAY_AHEAD
#include "cause.h"
