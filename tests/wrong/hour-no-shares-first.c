/* That nobody has a share is tested before the surplus's limit. */
#define MISTAKE NO_SHARES_FIRST
#include "hour.h"
