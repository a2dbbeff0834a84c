/* The surplus is not told. */
#define MISTAKE SURPLUS_UNTOLD
#include "cause.h"
