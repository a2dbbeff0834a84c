/* A longer list is taken. */
#define MISTAKE CAUSE_LONGER
#include "cause.h"
