// The output of a frame is twelve values, by its type.
#include "otto.hpp"

void output_of_11_values(otto::Machine &machine)
{
#ifdef RIGHT
    std::array<std::int32_t, 12> output{};
#else
    std::array<std::int32_t, 11> output{};
#endif

    if (!machine.frame({}, output)) {
        return;
    }
}
