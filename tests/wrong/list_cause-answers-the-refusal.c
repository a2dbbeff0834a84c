/* The hour's refusal is the answer, too. */
#define MISTAKE ANSWERS_THE_REFUSAL
#include "list_cause.h"
