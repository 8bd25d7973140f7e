// What a frame gives is to be looked at.
#include "otto.hpp"

void dropped_frame(otto::Machine &machine)
{
    otto::Output output{};

#ifdef RIGHT
    if (!machine.frame({}, output)) {
        return;
    }
#else
    machine.frame({}, output);
#endif
}
