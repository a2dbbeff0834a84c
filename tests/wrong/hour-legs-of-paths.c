/* A path without a seller is a sale of the participant to itself. */
#define MISTAKE LEGS_OF_PATHS
#include "hour.h"
