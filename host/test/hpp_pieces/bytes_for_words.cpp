// Sample memory is words.
#include <vector>

#include "otto.hpp"

bool bytes_for_words(otto::Machine &machine)
{
#ifdef RIGHT
    const std::vector<std::uint16_t> memory(100);
#else
    const std::vector<std::uint8_t> memory(100);
#endif
    otto::Output output{};

    return machine.frame(memory, output).has_value();
}
