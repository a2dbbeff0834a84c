/* Transactions aren't tested. */
#define MISTAKE TRANSACTIONS_UNTESTED
#include "list_cause.h"
