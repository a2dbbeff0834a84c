/* An hour without participants or locations is said to be right. */
#define MISTAKE COUNTS_FROM_0
#include "list_cause.h"
