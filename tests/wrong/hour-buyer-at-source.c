/* A buyer injects at the source of its purchase. */
#define MISTAKE BUYER_AT_SOURCE
#include "hour.h"
