/* Each interval is rounded to cents, not the total. */
#define MISTAKE INTERVALS_ROUNDED
#include "hour.h"
