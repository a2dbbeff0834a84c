/* The check ends behind the last row. */
#define MISTAKE TRANSACTIONS_UNTESTED
#include "check.h"
