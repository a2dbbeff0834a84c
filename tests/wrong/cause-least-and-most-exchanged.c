/* The least and the most are exchanged. */
#define MISTAKE LEAST_AND_MOST_EXCHANGED
#include "cause.h"
