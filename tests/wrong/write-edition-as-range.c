/* Another edition is refused as a number outside its range. */
#define MISTAKE EDITION_AS_RANGE
#include "write.h"
