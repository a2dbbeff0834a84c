/* Transactions are tested before rows. */
#define MISTAKE TRANSACTIONS_FIRST
#include "write.h"
