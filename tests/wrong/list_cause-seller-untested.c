/* A seller may be none of the participants. */
#define MISTAKE SELLER_UNTESTED
#include "list_cause.h"
