/* A whole host: voice 0 plays one sample, and one frame is heard. */
#include <stdio.h>

#include "otto.h"

static uint32_t machine[OTTO_RECORD_WORDS];
static uint32_t refused; /* the first answer that was not 0 */

static void look_at(uint32_t answer)
{
    refused = refused != OTTO_DONE ? refused : answer;
}

/* A register is written by its four bytes, highest first. */
static void put(uint32_t number, uint32_t value)
{
    for (uint32_t byte = 0; byte < 4; byte++) {
        look_at(otto_write(machine, OTTO_RECORD_WORDS,
                           OTTO_ADDRESS(number, byte),
                           (uint8_t)(value >> (24 - 8 * byte))));
    }
}

int main(void)
{
    const uint16_t memory[2] = { 20000, 20000 };
    int32_t output[OTTO_OUTPUT_VALUES] = { 0 };
    uint32_t missing;

    look_at(otto_reset(machine, OTTO_RECORD_WORDS));
    put(OTTO_LVOL, OTTO_VOL_LOUDEST);
    put(OTTO_K2, OTTO_K_OPEN);
    put(OTTO_K1, OTTO_K_OPEN);
    put(OTTO_CR, OTTO_CR_LP3 | OTTO_CR_LP4); /* neither stop bit: it runs */
    look_at(otto_frame(machine, OTTO_RECORD_WORDS, memory, 2, output,
                       OTTO_OUTPUT_VALUES, &missing));
    printf("refused %u, heard %d, missing %u\n", refused, output[0], missing);
    return refused != OTTO_DONE;
}
