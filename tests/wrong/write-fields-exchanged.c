/* A row's participant and location are read for each other. */
#define MISTAKE FIELDS_EXCHANGED
#include "write.h"
