/*
 * converter: what examples/converter.h makes of sines, beside the straight line
 * between two frames. Prints for each sine how loud it comes out, and which
 * other tones are louder than -95 dB, the three loudest of them; both against
 * what was put in. A second has whole turns of all of these, so each is had by
 * one sum over the second.
 *
 * Fails where the converter loses a sine that it has to pass, leaves one that
 * it has to stop, adds a tone, is off by more than the rounding of frames and
 * samples, or asks for another number of frames than the rates say.
 */
#include <inttypes.h>
#include <math.h>
#include <stdio.h>
#include <string.h>

#include "checks.h"
#include "converter.h"

#define RATE   31250u
#define HIGH   48000u /* the highest rate that is tried */
#define SETTLE 2000u  /* samples that are not looked at */
#define LOUD   16000.0
#define LEAST  (-95.0) /* of a tone that is told, in dB */

#define PI 3.14159265358979323846

static double heard[HIGH];

/* ---- two ways from frames to samples ------------------------------------- */

static uint32_t frames;

static float sine(uint32_t hertz)
{
    uint32_t turn = (uint32_t)((uint64_t)hertz * frames % RATE);

    frames += 1;
    return (float)lrint(LOUD * sin(2.0 * PI * turn / RATE));
}

/* On the straight line between two frames. */
static void by_line(uint32_t hertz, uint32_t rate)
{
    uint32_t place = 0;
    float before = 0.0f, after = 0.0f;

    for (uint32_t i = 0; i < SETTLE + rate; i++) {
        float sample = before + (after - before) * (float)place / (float)rate;

        if (i >= SETTLE) {
            heard[i - SETTLE] = (double)lrintf(sample);
        }
        for (place += RATE; place >= rate; place -= rate) {
            before = after;
            after = sine(hertz);
        }
    }
}

static struct converter converter;

static void by_converter(uint32_t hertz, uint32_t rate)
{
    check_at("starts", RATE, rate, converter_start(&converter, RATE, rate), 1);
    for (uint32_t i = 0; i < SETTLE + rate; i++) {
        float sample[2];

        while (converter_is_due(&converter)) {
            float frame = sine(hertz);

            converter_put(&converter, frame, -frame);
        }
        converter_take(&converter, sample);
        if (i >= SETTLE) {
            heard[i - SETTLE] = (double)lrintf(sample[0]);
        }
        check_at("right is left, turned", rate, i, sample[1] == -sample[0], 1);
    }
}

/* ---- what is heard of a sine --------------------------------------------- */

/* In dB of the sine that was put in. */
static double level(uint32_t hertz, uint32_t rate)
{
    double sines = 0.0, cosines = 0.0;

    for (uint32_t i = 0; i < rate; i++) {
        uint32_t turn = (uint32_t)((uint64_t)hertz * i % rate);

        sines += heard[i] * sin(2.0 * PI * turn / rate);
        cosines += heard[i] * cos(2.0 * PI * turn / rate);
    }
    return 20.0 * log10(2.0 * hypot(sines, cosines) / rate / LOUD + 1e-9);
}

/* Where a frequency is heard at a rate that is too low for it. */
static uint32_t folded(uint32_t hertz, uint32_t rate)
{
    hertz %= rate;
    return hertz > rate / 2 ? rate - hertz : hertz;
}

struct tone {
    uint32_t hertz;
    double level;
};

#define TONES 17 /* the sine itself, and two about each of 8 times the rate */

/* The tones that a sine may give, the loudest first, but for the sine where the
   rate has it. Gives their number. */
static int other_tones(uint32_t hertz, uint32_t rate, struct tone tones[TONES])
{
    int count = 0;

    for (uint32_t k = 0; k < TONES; k++) {
        uint32_t about = (k + 1) / 2 * RATE;
        uint32_t at = folded(k % 2 == 1 ? about - hertz : about + hertz, rate);
        struct tone tone = { at, level(at, rate) };
        int place = 0;
        int known = at == hertz || at == 0 || 2 * at == rate;

        for (int i = 0; i < count; i++) {
            known = known || tones[i].hertz == at;
            place += tones[i].level >= tone.level;
        }
        if (known) {
            continue;
        }
        memmove(tones + place + 1, tones + place,
                (size_t)(count - place) * sizeof *tones);
        tones[place] = tone;
        count += 1;
    }
    return count;
}

static void say_tones(const struct tone *tones, int count)
{
    int said = 0;

    while (said < count && said < 3 && tones[said].level > LEAST) {
        printf("%s %" PRIu32 " Hz %.1f dB", said > 0 ? "," : ";",
               tones[said].hertz, tones[said].level);
        said += 1;
    }
    if (said == 0) {
        printf("; none above %.0f dB", LEAST);
    }
    printf("\n");
}

/* Nothing is printed as -0.0. */
static double to_tenths(double value)
{
    return (double)lrint(10.0 * value) / 10.0 + 0.0;
}

static void show(const char *way, uint32_t hertz, uint32_t rate,
                 const struct tone *tones, int count)
{
    printf("%s to %" PRIu32 ": %5" PRIu32 " Hz", way, rate, hertz);
    if (2 * hertz < rate) {
        printf("%7.1f dB", to_tenths(level(hertz, rate)));
    } else {
        printf("    beyond");
    }
    say_tones(tones, count);
}

/* All that is heard but for the sine, in dB of it. */
static double rest(uint32_t hertz, uint32_t rate)
{
    double squares = 0.0;
    double sine_there = 2 * hertz < rate ? level(hertz, rate) : -180.0;

    for (uint32_t i = 0; i < rate; i++) {
        squares += heard[i] * heard[i];
    }
    return 10.0 * log10(2.0 * squares / rate / (LOUD * LOUD) -
                        pow(10.0, sine_there / 10.0) + 1e-12);
}

static void try_sine(uint32_t hertz, uint32_t rate)
{
    struct tone tones[TONES];
    int count;

    frames = 0;
    by_line(hertz, rate);
    count = other_tones(hertz, rate, tones);
    show("line", hertz, rate, tones, count);

    frames = 0;
    by_converter(hertz, rate);
    count = other_tones(hertz, rate, tones);
    show("sinc", hertz, rate, tones, count);
    check_at("no other tone", hertz, rate, tones[0].level > LEAST, 0);
    check_at("the rest is rounding", hertz, rate, rest(hertz, rate) > -85.0, 0);
    if (2 * hertz < rate) {
        check_at("passes", hertz, rate, fabs(level(hertz, rate)) > 0.05, 0);
    }
}

/* ---- rates --------------------------------------------------------------- */

/* From the first sample on, as many frames are asked for in three seconds as
   the rates say. Silence stays silence, and a level that level. */
static void try_rates(uint32_t from, uint32_t to)
{
    float sample[2] = { 0.0f, 0.0f };
    uint32_t first = 0;

    frames = 0;
    check_at("starts", from, to, converter_start(&converter, from, to), 1);
    for (uint32_t i = 0; i <= 3 * to; i++) {
        while (converter_is_due(&converter)) {
            converter_put(&converter, 10000.0f, 0.0f);
            frames += 1;
        }
        first = i == 0 ? frames : first;
        converter_take(&converter, sample);
        check_at("silence", from, to, sample[1] != 0.0f, 0);
    }
    check_at("frames", from, to, frames - first, 3 * from);
    check_at("a level", from, to, lrintf(100.0f * sample[0]), 1000000);
}

/* A converter that was refused wants nothing and is silent. */
static void try_refusals(void)
{
    float sample[2] = { 1.0f, 1.0f };

    check("no rate", converter_start(&converter, RATE, 0), 0);
    check("no frames", converter_start(&converter, 0, 48000), 0);
    check("a quarter", converter_start(&converter, RATE, 7813), 1);
    check("below a quarter", converter_start(&converter, RATE, 7812), 0);
    check("wants nothing", converter_is_due(&converter), 0);
    converter_put(&converter, 1000.0f, 1000.0f);
    converter_take(&converter, sample);
    check("is silent", sample[0] == 0.0f && sample[1] == 0.0f, 1);
}

int main(void)
{
    static const uint32_t up[] = { 1000, 5000, 10000, 12000, 13000 };
    static const uint32_t down[] = { 1000, 5000, 9000, 12000 };

    for (size_t i = 0; i < sizeof up / sizeof *up; i++) {
        try_sine(up[i], 48000);
    }
    for (size_t i = 0; i < sizeof up / sizeof *up; i++) {
        try_sine(up[i], 44100);
    }
    for (size_t i = 0; i < sizeof down / sizeof *down; i++) {
        try_sine(down[i], 22050);
    }
    try_rates(RATE, 48000);
    try_rates(RATE, 44100);
    try_rates(RATE, 96000);
    try_rates(RATE, 22050);
    try_rates(RATE, 8000);
    try_rates(RATE, RATE);
    try_rates(41667, 48000);
    try_refusals();
    fprintf(stderr, "converter: %lu checks, %lu failed\n", checks, failed);
    return failed > 0;
}
