/* Interval 0 is settled and repeated for the other eleven. */
#define MISTAKE INTERVAL_0_REPEATED
#include "hour.h"
