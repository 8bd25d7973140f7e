// An import writes sample memory.
#include "otto.hpp"

bool import_into_const(otto::Span<const std::uint8_t> file)
{
#ifdef RIGHT
    std::array<std::uint16_t, 100> memory{};
#else
    const std::array<std::uint16_t, 100> memory{};
#endif

    return otto::import_wave(file, memory, 0).has_value();
}
