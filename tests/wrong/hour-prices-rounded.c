/* A real-time price over 12 is rounded to mills. */
#define MISTAKE PRICES_ROUNDED
#include "hour.h"
