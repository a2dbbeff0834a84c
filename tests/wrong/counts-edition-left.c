/* The edition is left as it was. */
#define MISTAKE EDITION_LEFT
#include "counts.h"
