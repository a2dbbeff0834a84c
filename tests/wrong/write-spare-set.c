/* The spare bits of rows are written as 1. */
#define MISTAKE SPARE_SET
#include "write.h"
