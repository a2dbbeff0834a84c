/* The list is tested before the file. */
#define MISTAKE LISTS_FIRST
#include "counts.h"
