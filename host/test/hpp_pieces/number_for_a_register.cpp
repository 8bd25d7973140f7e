// Nor is it the register, which has its pages.
#include "otto.hpp"

void number_for_a_register(otto::Machine &machine)
{
#ifdef RIGHT
    machine.write(otto::Voice::of<0>().lvol(), OTTO_VOL_LOUDEST);
#else
    machine.write(OTTO_LVOL, OTTO_VOL_LOUDEST);
#endif
}
