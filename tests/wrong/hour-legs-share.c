/* What is sold in real time counts as load in the surplus. */
#define MISTAKE LEGS_SHARE
#include "hour.h"
