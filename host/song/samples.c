/*
 * The sounds of the song's instruments, computed: loops of one wave, which go
 * on as long as they are played, and sounds that are played once, in which the
 * dying away is part of the sample. All arithmetic is of whole numbers, so that
 * every machine makes the same samples.
 */
#include "samples.h"

#define FULL     30000 /* the greatest sample of each sound */
#define ONE      (INT64_C(1) << 30)
#define PARTIALS 12u

uint16_t memory[SCORE_WORDS];
static int64_t sound[SCORE_WORDS]; /* one that is being made */

/* ---- sines --------------------------------------------------------------- */

/* The sine of a part of a turn, which has 2^32, times 2^30: four terms after
   the first of the series, within a quarter of the turn. */
static int64_t sine(uint32_t turn)
{
    static const int64_t terms[] = { 172272, 5027088, 85569285, 693598668 };
    int64_t x = (int64_t)turn;
    int64_t square;
    int64_t sum = 0;
    size_t i;

    x = x >= 3 * ONE ? x - 4 * ONE : x > ONE ? 2 * ONE - x : x;
    square = x * x / ONE;
    for (i = 0; i < LENGTH_OF(terms); i++) {
        sum = square * (terms[i] - sum) / ONE;
    }
    return x * (1686629713 - sum) / ONE;
}

/* Where in its wave a sample is, as a part of a turn. */
static uint32_t turn_at(uint32_t place, uint32_t wave)
{
    return (uint32_t)(((uint64_t)place * WHOLE_SAMPLE << 32) / wave);
}

/* Scaled so that the greatest becomes FULL, and cut to a whole number. */
static int16_t sample_of(int64_t value, int64_t greatest)
{
    return (int16_t)(value * FULL / greatest);
}

static int64_t greatest_of(uint32_t words)
{
    int64_t greatest = 1;
    uint32_t i;

    for (i = 0; i < words; i++) {
        int64_t value = sound[i] < 0 ? -sound[i] : sound[i];

        greatest = value > greatest ? value : greatest;
    }
    return greatest;
}

static void store(uint32_t word, uint32_t words, int compressed)
{
    int64_t greatest = greatest_of(words);
    uint32_t i;

    for (i = 0; i < words; i++) {
        int16_t sample = sample_of(sound[i], greatest);

        memory[word + i] = compressed
            ? (uint16_t)(reference_compress(sample) * 256u)
            : (uint16_t)sample;
    }
}

/* ---- loops --------------------------------------------------------------- */

/* A wave that fills its loop exactly, sixteenths and all, and goes on for the
   two words after END that a voice may ask for. */
static void make_loop(uint32_t word, uint32_t wave, const int64_t *levels)
{
    uint32_t words = wave / WHOLE_SAMPLE + 3u;
    uint32_t i, partial;

    for (i = 0; i < words; i++) {
        sound[i] = 0;
        for (partial = 0; partial < PARTIALS; partial++) {
            sound[i] += levels[partial] *
                        sine(turn_at(i, wave) * (partial + 1u)) / 1000;
        }
    }
    store(word, words, 0);
}

/* ---- sounds that are played once ----------------------------------------- */

/* The first words come up from 0: a string is pulled before it is let go. */
static void fade_start(uint32_t words)
{
    uint32_t i;

    for (i = 0; i < words; i++) {
        sound[i] = sound[i] * (int64_t)i / words;
    }
}

/* The last eighth goes down to 0, where a voice that is played once stops. */
static void fade_end(uint32_t words)
{
    uint32_t last = words / 8u;
    uint32_t i;

    for (i = 0; i < last; i++) {
        sound[words - 1u - i] = sound[words - 1u - i] * (int64_t)i / last;
    }
}

/* A string: the higher a partial, the sooner it is gone. */
static void make_pluck(void)
{
    int64_t levels[] = { 1000, 700, 500, 340, 260, 170, 120 };
    uint32_t i, partial;

    for (partial = 0; partial < LENGTH_OF(levels); partial++) {
        levels[partial] *= 1000000;
    }
    for (i = 0; i < PLUCK_WORDS; i++) {
        sound[i] = 0;
        for (partial = 0; partial < LENGTH_OF(levels); partial++) {
            int64_t loss = 1150 + 850 * (int64_t)partial;

            sound[i] += levels[partial] / 1000 *
                        (sine(turn_at(i, PLUCK_WAVE) * (partial + 1u)) / 1000);
            levels[partial] -= levels[partial] / 1000000 * loss;
        }
    }
    fade_start(16);
    fade_end(PLUCK_WORDS);
    store(PLUCK, PLUCK_WORDS, 0);
}

/* Chance that is the same each time, and dies away. */
static void make_noise(void)
{
    uint32_t chance = 1;
    int64_t level = ONE;
    uint32_t i;

    for (i = 0; i < NOISE_WORDS; i++) {
        chance = chance * 1664525u + 1013904223u;
        sound[i] = level / 65536 * ((int64_t)(chance >> 16) - 32768);
        level -= level / 210;
    }
    fade_end(NOISE_WORDS);
    sound[0] = 0;
    store(NOISE, NOISE_WORDS, 1);
}

/* A drum's skin, which gives way: its pitch falls while it dies away. */
static void make_thump(void)
{
    uint32_t turn = 0;
    uint32_t step = 700000000u;
    int64_t level = ONE;
    uint32_t i;

    for (i = 0; i < THUMP_WORDS; i++) {
        sound[i] = level / 65536 * (sine(turn) / 65536);
        turn += step;
        step -= (step - 138000000u) / 20u;
        level -= level / 95;
    }
    fade_end(THUMP_WORDS);
    store(THUMP, THUMP_WORDS, 0);
}

/* ---- all of them --------------------------------------------------------- */

void make_memory(void)
{
    static const int64_t bass[PARTIALS] = {
        1000, 520, 330, 190, 140, 90, 60, 40, 25, 15, 10, 5
    };
    static const int64_t strings[PARTIALS] = {
        1000, 560, 420, 300, 210, 170, 120, 100, 70, 60, 40, 30
    };
    static const int64_t lead[PARTIALS] = {
        1000, 480, 360, 130, 150, 60, 70, 30, 20, 15, 0, 0
    };
    static const int64_t held[PARTIALS] = {
        1000, 300, 160, 60, 40, 20, 10, 0, 0, 0, 0, 0
    };

    make_pluck();
    make_noise();
    make_thump();
    make_loop(BASS, BASS_WAVE, bass);
    make_loop(STRINGS, STRINGS_WAVE, strings);
    make_loop(LEAD, LEAD_WAVE, lead);
    make_loop(HELD_D, HELD_D_WAVE, held);
    make_loop(HELD_A, HELD_A_WAVE, held);
    make_loop(HELD_FS, HELD_FS_WAVE, held);
}
