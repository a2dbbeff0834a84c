/* A share is told without its participant. */
#define MISTAKE SHARES_UNNAMED
#include "cause.h"
