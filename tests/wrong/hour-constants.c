/* Every list is filled with zeros. */
#define MISTAKE CONSTANTS
#include "hour.h"
