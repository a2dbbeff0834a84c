/* A price below 0 is listed as the number that its bits make. */
#define MISTAKE PRICES_UNSIGNED
#include "read.h"
