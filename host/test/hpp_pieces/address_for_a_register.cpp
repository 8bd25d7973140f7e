// An address is that of one byte.
#include "otto.hpp"

void address_for_a_register(otto::Machine &machine)
{
#ifdef RIGHT
    machine.write(otto::Register::actv(), 15);
#else
    machine.write(otto::Register::actv().addresses()[3], 15);
#endif
}
