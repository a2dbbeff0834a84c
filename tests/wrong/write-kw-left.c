/* A row's kW stand one bit to the left. */
#define MISTAKE KW_LEFT
#include "write.h"
