// Voices are 0 to 31.
#include "otto.hpp"

void voice_32(otto::Machine &machine)
{
#ifdef RIGHT
    machine.write(otto::Voice::of<31>().cr(), OTTO_CR_STP1);
#else
    machine.write(otto::Voice::of<32>().cr(), OTTO_CR_STP1);
#endif
}
