/* As many rows are written as the header can tell of. */
#define MISTAKE ROWS_UNLIMITED
#include "write.h"
