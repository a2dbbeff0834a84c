/* The locations are counted. */
#define MISTAKE LOCATIONS_COUNTED
#include "participants.h"
