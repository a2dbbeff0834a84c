/* The odd cents go to the last participant. */
#define MISTAKE NONE
#define SPLIT wz_split
#include "split-odd-units-last.c"

#include "hour.h"
