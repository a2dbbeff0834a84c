/* The file's refusal is the answer, too. */
#define MISTAKE ANSWERS_THE_REFUSAL
#include "cause.h"
