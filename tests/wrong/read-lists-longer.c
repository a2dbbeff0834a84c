/* Lists may be longer than they must be. */
#define MISTAKE LISTS_LONGER
#include "read.h"
