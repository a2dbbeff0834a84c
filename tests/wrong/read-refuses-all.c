/* Every call is refused. */
#define MISTAKE REFUSES_ALL
#include "read.h"
