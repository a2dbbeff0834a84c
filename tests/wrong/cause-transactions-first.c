/* The header's transactions are tested before its rows. */
#define MISTAKE TRANSACTIONS_FIRST
#include "cause.h"
