/* The lengths of rows and transactions are tested after the prices. */
#define MISTAKE LISTS_LATE
#include "list_cause.h"
