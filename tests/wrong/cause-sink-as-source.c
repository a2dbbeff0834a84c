/* A sink is told as the source. */
#define MISTAKE SINK_AS_SOURCE
#include "cause.h"
