/* The answer is right and nothing is written. */
#define MISTAKE WRITES_NOTHING
#include "read.h"
