/* A contract's kW are tested with its identities, not before all of them. */
#define MISTAKE CONTRACTS_IN_TURN
#include "load.h"
