/* A transaction's source is taken for its sink. */
#define MISTAKE ENDS_EXCHANGED
#include "hour.h"
