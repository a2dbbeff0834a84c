/* Edition 2 is written as edition 1 is. */
#define MISTAKE EDITION_2_TAKEN
#include "write.h"
