/* A supplier's contracts in an area are split together where one follows the other. */
#define MISTAKE CONTRACTS_TOGETHER
#include "load.h"
