/* The reader hands back the rows of a file that the check refuses. */
#define MISTAKE STRETCH_OF_REFUSED
#include "check.h"
