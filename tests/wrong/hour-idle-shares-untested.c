/* A share's limit holds only where there is a surplus. */
#define MISTAKE IDLE_SHARES_UNTESTED
#include "hour.h"
