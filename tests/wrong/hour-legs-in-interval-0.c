/* A day-ahead sale stands in interval 0 alone. */
#define MISTAKE LEGS_IN_INTERVAL_0
#include "hour.h"
