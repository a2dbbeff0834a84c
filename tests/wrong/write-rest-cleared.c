/* Bytes beyond the file are cleared. */
#define MISTAKE REST_CLEARED
#include "write.h"
