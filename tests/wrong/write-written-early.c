/* Header and prices are written before the rows are tested. */
#define MISTAKE WRITTEN_EARLY
#include "write.h"
