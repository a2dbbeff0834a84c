/* The length of a list is told in numbers, not in bytes. */
#define MISTAKE LENGTHS_IN_NUMBERS
#include "list_cause.h"
