// Whether stored words were taken is to be looked at.
#include "otto.hpp"

void dropped_restore(otto::Machine &machine, const otto::Record &words)
{
#ifdef RIGHT
    if (!machine.restore(words)) {
        return;
    }
#else
    machine.restore(words);
#endif
}
