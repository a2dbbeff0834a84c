/* The place is one further. */
#define MISTAKE COUNTED_FROM_1
#include "list_cause.h"
