/*
 * From the engine's frames to samples at a host's own rate, by a windowed sinc:
 * what is below 0.83 of half the lower rate passes, and what is above that half
 * is stopped. Copy this into a host. `converter_start` makes the coefficients,
 * once; the other three are for the audio callback, where each sample is made
 * so:
 *
 *   while (converter_is_due(&converter)) {
 *       .. run a frame ..
 *       converter_put(&converter, left, right);
 *   }
 *   converter_take(&converter, heard);
 *
 * A struct converter holds all that it works on, 265 KB, and is best static. A
 * sample comes 32 frames late, and where the host's rate is the lower one later
 * by their ratio. Link with -lm.
 */
#ifndef CONVERTER_H
#define CONVERTER_H

#include <math.h>
#include <stdint.h>
#include <string.h>

#define CONVERTER_TAPS      64u  /* frames that go into a sample; more where
                                    the host's rate is the lower one */
#define CONVERTER_MOST_TAPS 256u /* down to a quarter of the engine's rate; 64
                                    do where the host's is the higher one */
#define CONVERTER_PHASES    256u /* places between two frames that have
                                    coefficients; others lie between these */
#define CONVERTER_CUTOFF    0.91 /* of half the lower rate */
#define CONVERTER_BETA      9.0  /* of the window, Kaiser's */

struct converter {
    uint32_t from, to; /* the engine's rate and the host's, in hertz */
    uint32_t taps;
    uint32_t place;    /* of the next sample after a frame, in parts of `to` */
    uint32_t due;      /* frames that have to be put in before it */
    float frames[CONVERTER_MOST_TAPS][2]; /* left and right, the oldest first */
    float coefficients[CONVERTER_PHASES + 1][CONVERTER_MOST_TAPS];
};

/* The Bessel function I0, by its series. */
static inline double converter_bessel(double x)
{
    double term = 1.0, sum = 1.0;

    for (int i = 1; term > 1e-12 * sum; i++) {
        term *= x * x / (4.0 * i * i);
        sum += term;
    }
    return sum;
}

/* The weight of a frame at a distance from the sample, both in frames, where
   the cutoff is a part of half the engine's rate and the window reaches so far
   to each side. */
static inline double converter_weight(double distance, double cutoff,
                                      double reach)
{
    double turn = 3.14159265358979323846 * cutoff * distance;
    double beside = distance / reach;

    if (fabs(beside) > 1.0) {
        return 0.0;
    }
    return (turn == 0.0 ? 1.0 : sin(turn) / turn) *
           converter_bessel(CONVERTER_BETA * sqrt(1.0 - beside * beside));
}

/* Begins in silence. Gives 0 where the host's rate is below a quarter of the
   engine's or one is 0: then the converter wants no frames and stays silent. */
static inline int converter_start(struct converter *c, uint32_t from,
                                  uint32_t to)
{
    double down = from > to ? (double)to / from : 1.0;
    double reach;

    memset(c, 0, sizeof *c);
    if (from == 0 || to == 0) {
        return 0;
    }
    reach = ceil(CONVERTER_TAPS / 2 / down);
    if (2.0 * reach > CONVERTER_MOST_TAPS) {
        return 0;
    }
    c->from = from;
    c->to = to;
    c->taps = 2 * (uint32_t)reach;
    c->due = 1;
    for (uint32_t phase = 0; phase <= CONVERTER_PHASES; phase++) {
        double weights[CONVERTER_MOST_TAPS], sum = 0.0;

        for (uint32_t tap = 0; tap < c->taps; tap++) {
            double distance = tap + 1.0 - reach -
                              (double)phase / CONVERTER_PHASES;

            weights[tap] = converter_weight(distance, CONVERTER_CUTOFF * down,
                                            reach);
            sum += weights[tap];
        }
        for (uint32_t tap = 0; tap < c->taps; tap++) {
            c->coefficients[phase][tap] = (float)(weights[tap] / sum);
        }
    }
    return 1;
}

/* Whether a frame has to be put in before the next sample is taken. */
static inline int converter_is_due(const struct converter *c)
{
    return c->due > 0;
}

static inline void converter_put(struct converter *c, float left, float right)
{
    if (c->taps == 0) {
        return;
    }
    memmove(c->frames[0], c->frames[1],
            (c->taps - 1) * sizeof c->frames[0]);
    c->frames[c->taps - 1][0] = left;
    c->frames[c->taps - 1][1] = right;
    c->due -= c->due > 0;
}

/* The next sample, left and right. It may be louder than every frame. */
static inline void converter_take(struct converter *c, float heard[2])
{
    uint64_t place = (uint64_t)c->place * CONVERTER_PHASES;
    uint64_t next = (uint64_t)c->place + c->from;
    const float *before, *after;
    float rest;

    heard[0] = heard[1] = 0.0f;
    if (c->taps == 0) {
        return;
    }
    before = c->coefficients[place / c->to];
    after = c->coefficients[place / c->to + 1];
    rest = (float)(place % c->to) / (float)c->to;
    for (uint32_t tap = 0; tap < c->taps; tap++) {
        float weight = before[tap] + rest * (after[tap] - before[tap]);

        heard[0] += weight * c->frames[tap][0];
        heard[1] += weight * c->frames[tap][1];
    }
    c->due += (uint32_t)(next / c->to);
    c->place = (uint32_t)(next % c->to);
}

#endif
