/* Edition 2 is taken as edition 1. */
#define MISTAKE EDITION_2_TAKEN
#include "list_cause.h"
