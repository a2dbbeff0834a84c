/* A longer list is taken. */
#define MISTAKE LISTS_LONGER
#include "counts.h"
