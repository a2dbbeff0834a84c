/* One byte is taken for a header. */
#define MISTAKE HEADER_CUT
#include "participants.h"
