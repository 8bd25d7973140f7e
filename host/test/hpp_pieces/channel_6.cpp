// Channels are 0 to 5.
#include "otto.hpp"

std::uint32_t channel_6()
{
#ifdef RIGHT
    return otto::Channel::of<5>().cr_bits();
#else
    return otto::Channel::of<6>().cr_bits();
#endif
}
