/* Decrement bids count as load in the surplus. */
#define MISTAKE BIDS_SHARE
#include "hour.h"
