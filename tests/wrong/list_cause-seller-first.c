/* The seller is tested before the participant. */
#define MISTAKE SELLER_FIRST
#include "list_cause.h"
