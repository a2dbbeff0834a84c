/* Bytes behind the last number of a list are passed over. */
#define MISTAKE LENGTHS_CUT
#include "list_cause.h"
