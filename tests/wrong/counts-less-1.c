/* The participants are one less than there are. */
#define MISTAKE COUNTS_AS_THEY_ARE
#include "counts.h"
