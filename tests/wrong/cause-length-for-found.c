/* The length that is told by the header is said to be found. */
#define MISTAKE LENGTH_FOR_FOUND
#include "cause.h"
