/* The shortest file is said to be a header. */
#define MISTAKE HEADER_IS_ENOUGH
#include "cause.h"
