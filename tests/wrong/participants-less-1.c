/* The header's own number is answered, one less than there are. */
#define MISTAKE COUNTS_AS_THEY_ARE
#include "participants.h"
