// Nor may its length be unknown.
#include <vector>

#include "otto.hpp"

void output_of_any_length(otto::Machine &machine)
{
#ifdef RIGHT
    otto::Output output{};
#else
    std::vector<std::int32_t> output(12);
#endif

    if (!machine.frame({}, output)) {
        return;
    }
}
