/* Seller and source stand in each other's place. */
#define MISTAKE SELLER_AND_SOURCE_EXCHANGED
#include "write.h"
