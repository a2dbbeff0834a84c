/* A refused call clears the buffer. */
#define MISTAKE CLEARED_WHEN_REFUSED
#include "write.h"
