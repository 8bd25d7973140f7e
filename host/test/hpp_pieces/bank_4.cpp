// Banks are 0 to 3.
#include "otto.hpp"

std::uint32_t bank_4()
{
#ifdef RIGHT
    return otto::Bank::of<3>().cr_bits();
#else
    return otto::Bank::of<4>().cr_bits();
#endif
}
