/* Without shares any surplus is said to be right. */
#define MISTAKE NO_SHARES_AS_RANGE
#include "cause.h"
