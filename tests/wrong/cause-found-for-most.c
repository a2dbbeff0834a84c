/* The most that may stand there is what is found. */
#define MISTAKE FOUND_FOR_MOST
#include "cause.h"
