/* A seller may be none of the participants. */
#define MISTAKE SELLER_UNTESTED
#include "check.h"
