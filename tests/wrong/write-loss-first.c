/* Prices of loss are written before those of congestion. */
#define MISTAKE LOSS_FIRST
#include "write.h"
