/*
 * Prints the code chart of standard input: one line for each pair of bytes,
 * high byte first, with the sample, its code and the code's value.
 */
#include <stdio.h>

#include "reference.h"

#define MOST_BYTES 65536u

/* One byte more shows what is too long. */
static unsigned char input[MOST_BYTES + 1u];

static int16_t sample_of(unsigned char high, unsigned char low)
{
    int32_t word = 256 * (int32_t)high + (int32_t)low;

    return (int16_t)(word < 32768 ? word : word - 65536);
}

int main(void)
{
    size_t bytes = fread(input, 1, sizeof input, stdin);
    size_t place;

    if (bytes > MOST_BYTES) {
        printf("too long\n");
        return 0;
    }
    for (place = 0; place + 1 < bytes; place += 2) {
        int16_t sample = sample_of(input[place], input[place + 1]);
        uint8_t code = reference_compress(sample);

        printf("%d %u %d\n", sample, (unsigned)code, reference_expand(code));
    }
    if (bytes % 2 == 1) {
        printf("odd byte\n");
    }
    return 0;
}
