// The machine alone writes its record.
#include "otto.hpp"

void record_that_is_written(otto::Machine &machine)
{
#ifdef RIGHT
    otto::Record record = machine.record();

    record[OTTO_WORD_PAGE] = 1;
#else
    machine.record()[OTTO_WORD_PAGE] = 1;
#endif
}
