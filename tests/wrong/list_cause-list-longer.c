/* A longer list for the cause is taken. */
#define MISTAKE CAUSE_LONGER
#include "list_cause.h"
