/* The surplus is that of prices rounded over 12. */
#define MISTAKE PRICES_ROUNDED
#include "cause.h"
