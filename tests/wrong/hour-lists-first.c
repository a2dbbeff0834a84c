/* Output lists are tested, where that is possible, before the file. */
#define MISTAKE LISTS_FIRST
#include "hour.h"
