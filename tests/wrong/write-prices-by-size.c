/* A price below 0 is written as its size. */
#define MISTAKE PRICES_BY_SIZE
#include "write.h"
