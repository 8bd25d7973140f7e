// The number of a register is not the address of a byte.
#include "otto.hpp"

bool number_for_an_address(otto::Machine &machine)
{
#ifdef RIGHT
    const otto::Address address = otto::Voice::of<0>().lvol().addresses()[3];
#else
    const std::uint32_t address = OTTO_LVOL;
#endif

    return machine.write_byte(address, 0xF0).has_value();
}
