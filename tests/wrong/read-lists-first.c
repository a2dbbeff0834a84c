/* The lists are tested before the file's length. */
#define MISTAKE LISTS_FIRST
#include "read.h"
