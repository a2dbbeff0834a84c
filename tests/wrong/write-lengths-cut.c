/* Bytes of a list beyond whole numbers are not seen. */
#define MISTAKE LENGTHS_CUT
#include "write.h"
