/* A sale is no withdrawal of its seller. */
#define MISTAKE SELLER_LEFT_OUT
#include "hour.h"
