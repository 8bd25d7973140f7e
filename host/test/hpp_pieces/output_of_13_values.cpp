// Nor is it longer.
#include "otto.hpp"

void output_of_13_values(otto::Machine &machine)
{
#ifdef RIGHT
    std::int32_t output[12] = { 0 };
#else
    std::int32_t output[13] = { 0 };
#endif

    if (!machine.frame({}, output)) {
        return;
    }
}
