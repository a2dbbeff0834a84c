/* A negative surplus is cut downward in place of toward zero. */
#define MISTAKE NONE
#define SPLIT wz_split
#include "split-cut-downward.c"

#include "hour.h"
