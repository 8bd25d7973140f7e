/*
 * fade: a volume on its way over any time, at any number of frames a second.
 *
 * A ramp is a whole number and ECOUNT at most 511, so a way is cut into pieces,
 * and each piece is aimed from where the level is by then: what a whole ramp
 * lacks in one piece is made up for in the next. Prints how far from the way
 * the level was at most, at the chip's rate and at another.
 */
#include <math.h>

#include "machine.h"

#define PIECE 100u /* frames, about 2 ms; 511 at most */

static uint32_t machine[OTTO_RECORD_WORDS];

/* ---- a way and its pieces ------------------------------------------------ */

/* A ramp that takes a level near to another in so many frames. */
static uint32_t ramp_to(uint32_t level, double wanted, uint32_t frames)
{
    long step = lrint((wanted - level) / frames);
    long held = step < -128 ? -128 : step > 127 ? 127 : step;

    return (uint32_t)(held & 0xFF) << 8;
}

/* Where both volumes are to be after so many frames. */
static void aim(uint32_t voice, double left, double right, uint32_t frames)
{
    const uint32_t *volume = &machine[OTTO_WORD_LOWER(voice, 0u)];

    put(machine, OTTO_PAGE, OTTO_PAGE_LOWER(voice));
    put(machine, OTTO_ECOUNT, 0);
    put(machine, OTTO_LVRAMP, ramp_to(volume[OTTO_LVOL], left, frames));
    put(machine, OTTO_RVRAMP, ramp_to(volume[OTTO_RVOL], right, frames));
    put(machine, OTTO_K2RAMP, 0);
    put(machine, OTTO_K1RAMP, 0);
    put(machine, OTTO_ECOUNT, frames);
}

/* ---- what comes of it ---------------------------------------------------- */

static void run_frame(void)
{
    const uint16_t memory[2] = { 0, 0 };
    int32_t output[OTTO_OUTPUT_VALUES];
    uint32_t missing;

    must(otto_frame(machine, OTTO_RECORD_WORDS, memory, 2, output,
                    OTTO_OUTPUT_VALUES, &missing));
}

/* A voice that runs, and stands on its first sample. */
static void start_voice(void)
{
    must(otto_reset(machine, OTTO_RECORD_WORDS));
    put(machine, OTTO_LVOL, OTTO_VOL_LOUDEST);
    put(machine, OTTO_RVOL, OTTO_VOL_LOUDEST);
    put(machine, OTTO_CR, 0);
}

/* From the loudest down by so much, in so many frames. */
static void fade(double change, uint32_t frames, uint32_t rate)
{
    const uint32_t *level = &machine[OTTO_WORD_LOWER(0u, OTTO_LVOL)];
    double way = change / frames, most = 0.0;

    start_voice();
    for (uint32_t frame = 0; frame < frames; frame++) {
        if (frame % PIECE == 0) {
            uint32_t end = frame + PIECE < frames ? frame + PIECE : frames;
            double wanted = OTTO_VOL_LOUDEST - way * end;

            aim(0, wanted, wanted, end - frame);
        }
        run_frame();
        most = fmax(most, fabs(OTTO_VOL_LOUDEST - way * (frame + 1) - *level));
    }
    printf("%.0f down in %u frames, %u a second: %.0f off at most, %.2f dB\n",
           change, (unsigned)frames, (unsigned)rate, most,
           most * 20.0 * log10(2.0) / 4096.0);
}

int main(void)
{
    fade(128.0 * 511, 511, 31250);
    fade(128.0 * 511, 785, 48000);
    fade(31250.0, 31250, 31250);
    fade(31250.0, 48000, 48000);
    return 0;
}
