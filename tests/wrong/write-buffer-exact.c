/* A buffer that is longer than the file is refused. */
#define MISTAKE BUFFER_EXACT
#include "write.h"
