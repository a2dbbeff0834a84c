/* A list of seven numbers and some bytes is taken. */
#define MISTAKE LENGTHS_CUT
#include "cause.h"
