/* Transactions are counted on from the rows. */
#define MISTAKE COUNTED_BEHIND_ROWS
#include "cause.h"
