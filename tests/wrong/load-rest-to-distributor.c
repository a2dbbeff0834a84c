/* What remains goes to the distributor although there are tranches. */
#define MISTAKE REST_TO_DISTRIBUTOR
#include "load.h"
