/* Every market but 0 is taken for real time. */
#define MISTAKE MARKETS_UNTESTED
#include "write.h"
