/* Transactions are listed as they are. */
#define MISTAKE TRANSACTIONS_UNTESTED
#include "read.h"
