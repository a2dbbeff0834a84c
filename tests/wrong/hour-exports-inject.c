/* Exports inject. */
#define MISTAKE EXPORTS_INJECT
#include "hour.h"
