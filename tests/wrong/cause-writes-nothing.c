/* The list stays as it was. */
#define MISTAKE WRITES_NOTHING
#include "cause.h"
