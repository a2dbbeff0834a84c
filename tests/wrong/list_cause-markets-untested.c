/* Any market but 0 is real time. */
#define MISTAKE MARKETS_UNTESTED
#include "list_cause.h"
