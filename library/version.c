/* The version of the library: that of the header which it was made with. */
#include "../include/tealsettle.h"

uint32_t tealsettle_version(void)
{
    return TEALSETTLE_VERSION_NUMBER;
}
