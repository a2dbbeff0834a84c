/* A file that is refused has no participants. */
#define MISTAKE REST_TESTED
#include "participants.h"
