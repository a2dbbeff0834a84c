/* Prices of loss are listed before those of congestion. */
#define MISTAKE LOSS_FIRST
#include "read.h"
