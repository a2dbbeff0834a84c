/* The refusal is told, and no place. */
#define MISTAKE REFUSAL_ALONE
#include "cause.h"
