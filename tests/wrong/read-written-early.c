/* Prices are listed before the rows are tested. */
#define MISTAKE WRITTEN_EARLY
#include "read.h"
