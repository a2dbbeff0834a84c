/* A location with day-ahead kW and no real-time row in an interval is skipped there. */
#define MISTAKE LOCATIONS_SKIPPED
#include "hour.h"
