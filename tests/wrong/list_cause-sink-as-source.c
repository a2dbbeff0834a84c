/* A sink is told as the source. */
#define MISTAKE SINK_AS_SOURCE
#include "list_cause.h"
