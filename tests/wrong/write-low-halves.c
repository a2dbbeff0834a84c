/* Of each number only the low 32 bits are looked at. */
#define MISTAKE LOW_HALVES
#include "write.h"
