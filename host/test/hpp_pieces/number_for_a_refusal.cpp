// A refusal is not a number.
#include "otto.hpp"

bool number_for_a_refusal(otto::Refusal refusal)
{
#ifdef RIGHT
    return refusal == otto::Refusal::too_few_voices;
#else
    return refusal == OTTO_TOO_FEW_VOICES;
#endif
}
