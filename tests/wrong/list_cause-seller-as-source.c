/* A wrong seller is told as the source. */
#define MISTAKE SELLER_AS_SOURCE
#include "list_cause.h"
