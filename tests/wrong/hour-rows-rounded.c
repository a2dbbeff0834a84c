/* Each row is rounded to cents, not the total. */
#define MISTAKE ROWS_ROUNDED
#include "hour.h"
