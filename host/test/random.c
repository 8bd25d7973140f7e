/*
 * A generator of the xorshift kind; its upper bits, multiplied, are given out.
 */
#include "random.h"

static uint64_t state = 1;

void random_seed(uint64_t seed)
{
    /* The state must not be 0; an odd factor keeps unlike seeds unlike. */
    state = seed * 0x9E3779B97F4A7C15u + 1;
    if (state == 0) {
        state = 1;
    }
    for (int i = 0; i < 8; i++) {
        (void)random_word();
    }
}

uint32_t random_word(void)
{
    state ^= state >> 12;
    state ^= state << 25;
    state ^= state >> 27;
    return (uint32_t)((state * 0x2545F4914F6CDD1Du) >> 32);
}

uint32_t random_below(uint32_t limit)
{
    return (uint32_t)(((uint64_t)random_word() * limit) >> 32);
}

int random_once_in(uint32_t times)
{
    return random_below(times) == 0;
}
