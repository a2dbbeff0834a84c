/* A number is written before the last refusal. */
#define MISTAKE WRITTEN_EARLY
#include "counts.h"
