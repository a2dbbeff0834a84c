/* The range of kW is tested before the identities. */
#define MISTAKE RANGE_BEFORE_IDENTITY
#include "write.h"
