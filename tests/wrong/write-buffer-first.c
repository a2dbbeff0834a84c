/* The buffer is tested before prices and rows. */
#define MISTAKE BUFFER_FIRST
#include "write.h"
