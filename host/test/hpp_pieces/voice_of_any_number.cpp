// A number that is no constant may be no voice's.
#include "otto.hpp"

void voice_of_any_number(otto::Machine &machine, std::uint32_t number)
{
#ifdef RIGHT
    if (const auto voice = otto::Voice::at(number)) {
        machine.write(voice->cr(), OTTO_CR_STP1);
    }
#else
    machine.write(otto::Voice(number).cr(), OTTO_CR_STP1);
#endif
}
