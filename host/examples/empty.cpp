// A set that is not loaded yet is an empty vector, and may be lent as it is,
// though its data() may be null.
#include <cstdio>
#include <vector>

#include "otto.h"

int main()
{
    std::vector<uint32_t> machine(OTTO_RECORD_WORDS);
    std::vector<uint16_t> memory;
    int32_t output[OTTO_OUTPUT_VALUES];
    uint32_t missing;

    if (otto_reset(machine.data(), machine.size()) != OTTO_DONE) {
        return 1;
    }
    machine[OTTO_WORD_LOWER(0, OTTO_CR)] = 0; // voice 0 runs, and finds nothing
    uint32_t answer =
        otto_frame(machine.data(), machine.size(), memory.data(),
                   memory.size(), output, OTTO_OUTPUT_VALUES, &missing);

    std::printf("answer %u, heard %d, missing %u\n", answer, output[0],
                missing);
}
