/*
 * refused: a host that runs a frame before it has reset its record. What the
 * examples' `must` says of it is in expected/refused.
 */
#include "machine.h"

static uint32_t machine[OTTO_RECORD_WORDS];

int main(void)
{
    int32_t output[OTTO_OUTPUT_VALUES];
    uint32_t missing;

    must(otto_frame(machine, OTTO_RECORD_WORDS, NULL, 0, output,
                    OTTO_OUTPUT_VALUES, &missing));
    return 0;
}
