/* Numbers of rows and transactions below 0 are not looked for. */
#define MISTAKE BELOW_ZERO_UNTESTED
#include "write.h"
