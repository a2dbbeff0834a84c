/* Refusal 7 comes before 10. */
#define MISTAKE NO_SHARES_FIRST
#include "cause.h"
