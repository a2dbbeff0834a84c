/* Only the low 32 bits of numbers are looked at. */
#define MISTAKE LOW_HALVES
#include "list_cause.h"
