/* The version of another header. */
#include "wunzelihle.h"

uint32_t wz_version(void)
{
    return WZ_VERSION + 1;
}
