/* Of spare bits the kW are told. */
#define MISTAKE KW_FOR_SPARE
#include "cause.h"
