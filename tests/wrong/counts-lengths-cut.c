/* A list of four numbers and some bytes is taken. */
#define MISTAKE LENGTHS_CUT
#include "counts.h"
