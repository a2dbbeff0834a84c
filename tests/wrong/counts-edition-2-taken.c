/* Edition 2 is read as edition 1. */
#define MISTAKE EDITION_2_TAKEN
#include "counts.h"
