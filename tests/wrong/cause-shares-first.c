/* Shares are tested before the surplus. */
#define MISTAKE SHARES_FIRST
#include "cause.h"
