/* The edition is tested after the counts. */
#define MISTAKE EDITION_LATE
#include "hour.h"
