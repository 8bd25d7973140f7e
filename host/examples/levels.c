/*
 * levels: volumes for decibels and K2 for cutoffs, and what a note then has of
 * them. One pole of the four is set, the others let all through.
 */
#include <math.h>

#include "machine.h"

#define RATE   31250
#define PERIOD 64 /* samples on the loop */

#define PI 3.14159265358979323846

/* A volume that is so many decibels above the loudest; a number below 0. */
static uint32_t volume(double decibels)
{
    int exponent;
    double mantissa = frexp(511.0 / 512.0 * pow(10.0, decibels / 20.0),
                            &exponent); /* 0.5 to 1 */
    long all = 256L * (15 + exponent) + lrint(512.0 * mantissa) - 256;

    return (uint32_t)(all < 0 ? 0 : all > 4095 ? 4095 : all) << 4;
}

/* A pole's share, 0 to 1, as twelve bits at the top of a register. */
static uint32_t twelve_bits(double share)
{
    long k = lrint(4096.0 * share);

    return (uint32_t)(k < 0 ? 0 : k > 4095 ? 4095 : k) << 4;
}

/* A low pass adds a share of the way to its input. */
static uint32_t low_pass(double hertz)
{
    double c = 2.0 - cos(2.0 * PI * hertz / RATE);

    return twelve_bits(1.0 - c + sqrt(c * c - 1.0));
}

/* A high pass keeps a share of its last output, from one half on. */
static uint32_t high_pass(double hertz)
{
    double c = cos(2.0 * PI * hertz / RATE);
    double kept = c - sqrt(c * c - 4.0 * c + 3.0);

    return twelve_bits(2.0 * (kept - 0.5));
}

/* How loud a sine is at a volume and through pole 4, as the root of its
   squares' mean, once the filter has settled. */
static double loudness(double hertz, uint32_t vol, uint32_t k2, uint32_t poles)
{
    uint32_t machine[OTTO_RECORD_WORDS], missing;
    uint16_t memory[PERIOD + 1];
    int32_t output[OTTO_OUTPUT_VALUES];
    double squares = 0.0;

    for (int i = 0; i <= PERIOD; i++) {
        memory[i] = (uint16_t)lrint(16000.0 * sin(2.0 * PI * i / PERIOD));
    }
    must(otto_reset(machine, OTTO_RECORD_WORDS));
    put(machine, OTTO_FC,
        (uint32_t)lrint(hertz * PERIOD * OTTO_WHOLE_SAMPLE / RATE));
    put(machine, OTTO_LVOL, vol);
    put(machine, OTTO_K1, OTTO_K_OPEN);
    put(machine, OTTO_K2, k2);
    put(machine, OTTO_PAGE, OTTO_PAGE_UPPER(0u));
    put(machine, OTTO_END, PERIOD * OTTO_WHOLE_SAMPLE);
    put(machine, OTTO_CR, OTTO_CR_LPE | poles);
    for (int i = 0; i < 2 * RATE; i++) {
        must(otto_frame(machine, OTTO_RECORD_WORDS, memory, PERIOD + 1, output,
                        OTTO_OUTPUT_VALUES, &missing));
        squares += i < RATE ? 0.0 : (double)output[0] * output[0];
    }
    return sqrt(squares / RATE);
}

#define LOW  (OTTO_CR_LP3 | OTTO_CR_LP4) /* pole 4 is a low pass */
#define HIGH OTTO_CR_LP3                 /* or a high pass */

/* Against the loudest with the filter open. */
static double decibels(double hertz, uint32_t vol, uint32_t k2, uint32_t poles)
{
    return 20.0 * log10(loudness(hertz, vol, k2, poles) /
                        loudness(hertz, OTTO_VOL_LOUDEST, OTTO_K_OPEN, LOW));
}

static void show_cutoff(int hertz)
{
    uint32_t low = low_pass(hertz);
    uint32_t high = high_pass(hertz);

    printf("%4d Hz: low pass %04X, %.1f dB; high pass %04X, %.1f dB\n", hertz,
           (unsigned)low, decibels(hertz, OTTO_VOL_LOUDEST, low, LOW),
           (unsigned)high, decibels(hertz, OTTO_VOL_LOUDEST, high, HIGH));
}

/* What a high pass with the highest cutoff makes of a note. */
static void show_highest(int hertz)
{
    printf("K2 0: %4d Hz %4.1f dB\n", hertz,
           decibels(hertz, OTTO_VOL_LOUDEST, 0, HIGH));
}

int main(void)
{
    for (int wanted = 0; wanted >= -40; wanted -= 10) {
        uint32_t vol = volume(wanted);

        printf("%3d dB: volume %04X, %.1f dB\n", wanted, (unsigned)vol,
               decibels(500, vol, OTTO_K_OPEN, LOW));
    }
    for (int hertz = 250; hertz <= 2000; hertz *= 2) {
        show_cutoff(hertz);
    }
    show_highest(2045);
    show_highest(4000);
    show_highest(8000);
    return 0;
}
