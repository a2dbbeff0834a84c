/* A transaction's shortfall is not paid back. */
#define MISTAKE SHORTFALL_KEPT
#include "hour.h"
