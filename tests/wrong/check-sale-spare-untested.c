/* Spare bits of a sale may be set. */
#define MISTAKE SALE_SPARE_UNTESTED
#include "check.h"
