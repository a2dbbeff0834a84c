/* The lists of rows and transactions are tested after the prices. */
#define MISTAKE LISTS_LATE
#include "write.h"
