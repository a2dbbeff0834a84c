/* The version of this header: must be accepted. */
#include "wunzelihle.h"

uint32_t wz_version(void)
{
    return WZ_VERSION;
}
