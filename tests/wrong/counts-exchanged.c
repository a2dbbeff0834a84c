/* Transactions stand before rows. */
#define MISTAKE FIELDS_EXCHANGED
#include "counts.h"
