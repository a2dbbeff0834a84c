/* The most that may stand there is what is found. */
#define MISTAKE FOUND_FOR_MOST
#include "list_cause.h"
