/* The last row that is wrong is told, not the first. */
#define MISTAKE LAST_REFUSED
#include "cause.h"
