/* A row's kind and interval are written for each other. */
#define MISTAKE FIELDS_EXCHANGED
#include "read.h"
