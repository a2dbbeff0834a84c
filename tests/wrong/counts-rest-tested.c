/* What follows the header is tested, too. */
#define MISTAKE REST_TESTED
#include "counts.h"
