// A result is not its value: it may have none.
#include "otto.hpp"

std::uint32_t result_for_a_value(otto::Machine &machine)
{
    otto::Output output{};

#ifdef RIGHT
    return machine.frame({}, output).value_or(0);
#else
    return machine.frame({}, output);
#endif
}
