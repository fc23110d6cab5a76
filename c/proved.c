/* The build defines PROVED: 1 if the library was proved before it was built, and otherwise 0. */
#include "liquid.h"

uint32_t liquid_proved(void) {
    return PROVED;
}
