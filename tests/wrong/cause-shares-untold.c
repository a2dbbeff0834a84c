/* A share beyond its limit is not told. */
#define MISTAKE SHARES_UNTOLD
#include "cause.h"
