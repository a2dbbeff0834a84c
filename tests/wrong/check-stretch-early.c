/* The reader hands back the rows from one byte early on. */
#define MISTAKE STRETCH_EARLY
#include "check.h"
