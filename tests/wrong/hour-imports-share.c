/* Real-time imports count as exports in the surplus. */
#define MISTAKE IMPORTS_SHARE
#include "hour.h"
