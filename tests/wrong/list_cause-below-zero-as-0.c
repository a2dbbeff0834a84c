/* A number below 0 is told as 0. */
#define MISTAKE BELOW_ZERO_AS_0
#include "list_cause.h"
