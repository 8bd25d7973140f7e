// A record has 664 words.
#include "otto.hpp"

bool record_of_663_words(otto::Machine &machine)
{
#ifdef RIGHT
    const std::array<std::uint32_t, 664> words{};
#else
    const std::array<std::uint32_t, 663> words{};
#endif

    return machine.restore(words).has_value();
}
