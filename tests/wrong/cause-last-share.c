/* The last share that is beyond is told, not the first. */
#define MISTAKE LAST_SHARE
#include "cause.h"
