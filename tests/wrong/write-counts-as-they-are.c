/* The header has the participants without the less 1. */
#define MISTAKE COUNTS_AS_THEY_ARE
#include "write.h"
