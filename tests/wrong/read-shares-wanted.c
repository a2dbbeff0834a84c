/* A file without real-time load and exports is refused. */
#define MISTAKE SHARES_WANTED
#include "read.h"
