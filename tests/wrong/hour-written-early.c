/* Congestion charges are written before the surplus is tested. */
#define MISTAKE WRITTEN_EARLY
#include "hour.h"
