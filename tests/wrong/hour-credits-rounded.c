/* Each credit is rounded alone. */
#define MISTAKE NONE
#define SPLIT wz_split
#include "split-rounded-alone.c"

#include "hour.h"
