/* Prices are counted location by location. */
#define MISTAKE PRICES_BY_LOCATION
#include "cause.h"
