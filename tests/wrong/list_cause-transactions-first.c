/* Transactions are tested before rows. */
#define MISTAKE TRANSACTIONS_FIRST
#include "list_cause.h"
