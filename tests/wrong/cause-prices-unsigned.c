/* A price below 0 is told as its bits. */
#define MISTAKE PRICES_UNSIGNED
#include "cause.h"
