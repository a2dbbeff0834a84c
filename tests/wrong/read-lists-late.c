/* The lists are tested after the prices. */
#define MISTAKE LISTS_LATE
#include "read.h"
