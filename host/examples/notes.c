/*
 * notes: a host with three voices, loops, ramps and an interrupt, over the
 * public calls alone. Plays a second and prints what happened in it.
 * docs/HOST.md goes through it piece by piece.
 *
 *   voice 0   a wave of 50 15/16 samples, held on a loop
 *   voice 1   half a wave, as codes, on a loop there and back; it is retuned,
 *             released and stopped
 *   voice 2   a drum, played once, and started anew at its interrupt
 */
#include <math.h>
#include <string.h>

#include "converter.h"
#include "machine.h"

#define RATE         31250u /* frames a second: 16 MHz / (16 x 32 voices) */
#define MEMORY_WORDS 1024u
#define LOUDEST      30000  /* of the samples */

/* ---- sample memory ------------------------------------------------------- */

/* The words where the three sounds begin, and how long they are. */
#define WAVE       0u
#define RISE       64u
#define DRUM       128u
#define WAVE_16THS 815 /* of a sample: 50 15/16 samples */
#define RISE_STEPS 32
#define DRUM_STEPS 600

static uint16_t memory[MEMORY_WORDS];
static uint16_t *const wave = memory + WAVE;
static uint16_t *const rise = memory + RISE;
static uint16_t *const drum = memory + DRUM;

/* A triangle wave of LOUDEST, from 0 up. */
static int32_t triangle(int32_t place, int32_t period)
{
    int32_t climbed = 4 * LOUDEST * (place % period) / period;

    if (climbed < LOUDEST) {
        return climbed;
    }
    return climbed < 3 * LOUDEST ? 2 * LOUDEST - climbed
                                 : climbed - 4 * LOUDEST;
}

/* A voice at its loop's end asks for the word there and the next, so each sound
   has one word more than it plays. */
static void fill_memory(void)
{
    for (int32_t i = 0; i <= WAVE_16THS / 16 + 1; i++) {
        wave[i] = (uint16_t)triangle(16 * i, WAVE_16THS);
    }
    for (int32_t i = 0; i <= RISE_STEPS + 1; i++) {
        int32_t sample = 2 * LOUDEST * i / RISE_STEPS - LOUDEST;

        rise[i] = (uint16_t)(otto_compress((int16_t)sample) << 8);
    }
    for (int32_t i = 0; i <= DRUM_STEPS + 1; i++) {
        int32_t loud = LOUDEST * (DRUM_STEPS - i) / DRUM_STEPS;

        drum[i] = (uint16_t)(i / 40 % 2 == 0 ? loud : -loud);
    }
}

/* ---- notes --------------------------------------------------------------- */

static uint32_t machine[OTTO_RECORD_WORDS];

struct note {
    uint32_t start, end, accum; /* 2048ths of a sample, in the bank */
    uint32_t fc;
    uint32_t left, right;
    uint32_t cr; /* with neither stop bit */
};

/* The step of a voice for a pitch, where so many 2048ths are one wave. */
static uint32_t step_for(uint32_t millihertz, uint32_t wave)
{
    uint64_t product = (uint64_t)millihertz * wave;

    return (uint32_t)((product + 500u * RATE) / (1000u * RATE));
}

static void start_note(uint32_t voice, const struct note *note)
{
    put(machine, OTTO_PAGE, OTTO_PAGE_LOWER(voice));
    put(machine, OTTO_CR, OTTO_CR_STP1);
    put(machine, OTTO_ECOUNT, 0);
    put(machine, OTTO_FC, note->fc);
    put(machine, OTTO_LVOL, note->left);
    put(machine, OTTO_RVOL, note->right);
    put(machine, OTTO_K1, OTTO_K_OPEN);
    put(machine, OTTO_K2, OTTO_K_OPEN);

    put(machine, OTTO_PAGE, OTTO_PAGE_UPPER(voice));
    put(machine, OTTO_START, note->start);
    put(machine, OTTO_END, note->end);
    put(machine, OTTO_ACCUM, note->accum);
    for (uint32_t pole = OTTO_O4_N1; pole <= OTTO_O1_N1; pole++) {
        put(machine, pole, 0);
    }
    put(machine, OTTO_CR, note->cr);
}

static void retune(uint32_t voice, uint32_t fc)
{
    put(machine, OTTO_PAGE, OTTO_PAGE_LOWER(voice));
    put(machine, OTTO_FC, fc);
}

/* A signed number, -128 to 127, as a ramp register has it. */
static uint32_t ramp(int32_t step)
{
    return (uint32_t)(step & 0xFF) << 8;
}

/* ECOUNT sets all four ramps off, so all four are set. */
static void ramp_volumes(uint32_t voice, int32_t step, uint32_t count)
{
    put(machine, OTTO_PAGE, OTTO_PAGE_LOWER(voice));
    put(machine, OTTO_ECOUNT, 0);
    put(machine, OTTO_LVRAMP, ramp(step));
    put(machine, OTTO_RVRAMP, ramp(step));
    put(machine, OTTO_K2RAMP, 0);
    put(machine, OTTO_K1RAMP, 0);
    put(machine, OTTO_ECOUNT, count);
}

static void stop(uint32_t voice)
{
    put(machine, OTTO_PAGE, OTTO_PAGE_LOWER(voice));
    put(machine, OTTO_CR, get(machine, OTTO_CR) | OTTO_CR_STP1);
}

/* ---- frames -------------------------------------------------------------- */

static int16_t held_to_16_bits(int32_t value)
{
    return (int16_t)(value < -32768 ? -32768 : value > 32767 ? 32767 : value);
}

static uint32_t frames; /* that were run */

/* One frame, and of its six channels, 20 bits each, the sums as 16 bits. */
static void run_frame(int16_t heard[2])
{
    int32_t output[OTTO_OUTPUT_VALUES];
    int32_t sums[2] = { 0, 0 };
    uint32_t missing;

    must(otto_frame(machine, OTTO_RECORD_WORDS, memory, MEMORY_WORDS, output,
                    OTTO_OUTPUT_VALUES, &missing));
    if (missing != 0) {
        fprintf(stderr, "%u words are missing\n", (unsigned)missing);
    }
    frames += 1;
    for (size_t i = 0; i < OTTO_OUTPUT_VALUES; i++) {
        sums[i % 2] += output[i];
    }
    heard[0] = held_to_16_bits(sums[0] / 16);
    heard[1] = held_to_16_bits(sums[1] / 16);
}

/* After each frame: the voice whose interrupt is taken, or OTTO_NO_VOICE. */
static uint32_t take_interrupt(void)
{
    uint32_t mask, voice;

    must(otto_waiting(machine, OTTO_RECORD_WORDS, &mask));
    if (mask == 0) {
        return OTTO_NO_VOICE;
    }
    voice = get(machine, OTTO_IRQV);
    if (voice == OTTO_NO_VOICE || (mask >> voice & 1) == 0) {
        return OTTO_NO_VOICE; /* none, or one that was withdrawn */
    }
    return voice;
}

/* ---- another rate -------------------------------------------------------- */

static struct converter converter;

/* What an audio callback does: so many samples at the host's rate, of frames
   that are run as they are due. */
static void fill(int16_t (*heard)[2], size_t samples)
{
    for (size_t i = 0; i < samples; i++) {
        int16_t frame[2];
        float sample[2];

        while (converter_is_due(&converter)) {
            run_frame(frame);
            converter_put(&converter, frame[0], frame[1]);
        }
        converter_take(&converter, sample);
        heard[i][0] = held_to_16_bits((int32_t)lrintf(sample[0]));
        heard[i][1] = held_to_16_bits((int32_t)lrintf(sample[1]));
    }
}

/* ---- the second ---------------------------------------------------------- */

#define AT(word)    ((word) * OTTO_WHOLE_SAMPLE)
#define WAVE_LENGTH (WAVE_16THS * (OTTO_WHOLE_SAMPLE / 16))
#define RISE_LENGTH (RISE_STEPS * OTTO_WHOLE_SAMPLE)
#define DRUM_LENGTH (DRUM_STEPS * OTTO_WHOLE_SAMPLE)
#define LOW_PASSES  (OTTO_CR_LP3 | OTTO_CR_LP4) /* all four poles */

static void start_wave(void)
{
    const struct note note = {
        .start = AT(WAVE),
        .end = AT(WAVE) + WAVE_LENGTH,
        .accum = AT(WAVE),
        .fc = step_for(440000, WAVE_LENGTH),
        .left = 0xE000,
        .right = 0xC000,
        .cr = LOW_PASSES | OTTO_CR_LPE,
    };

    start_note(0, &note);
}

static void start_rise(uint32_t voice)
{
    const struct note note = {
        .start = AT(RISE),
        .end = AT(RISE) + RISE_LENGTH,
        .accum = AT(RISE),
        .fc = step_for(660000, 2 * RISE_LENGTH),
        .left = 0xC000,
        .right = 0xE000,
        .cr = LOW_PASSES | OTTO_CR_LPE | OTTO_CR_BLE | OTTO_CR_CMPD |
              OTTO_CR_CA(1),
    };

    start_note(voice, &note);
}

static void start_drum(void)
{
    const struct note note = {
        .start = AT(DRUM),
        .end = AT(DRUM) + DRUM_LENGTH,
        .accum = AT(DRUM),
        .fc = OTTO_WHOLE_SAMPLE / 16,
        .left = 0xE000,
        .right = 0xE000,
        .cr = LOW_PASSES | OTTO_CR_IRQE,
    };

    start_note(2, &note);
}

/* What the host does after the frame of this number. */
static void after_frame(uint32_t frame)
{
    if (frame == 10000) {
        retune(1, step_for(495000, 2 * RISE_LENGTH));
    }
    if (frame == 20000) { /* the release: 6 dB less every 32 frames */
        ramp_volumes(1, -128, OTTO_MOST_ECOUNT);
    }
    if (frame == 20000 + OTTO_MOST_ECOUNT) {
        printf("released: volumes %04X, %04X\n",
               (unsigned)machine[OTTO_WORD_LOWER(1, OTTO_LVOL)],
               (unsigned)machine[OTTO_WORD_LOWER(1, OTTO_RVOL)]);
        stop(1);
        printf("stopped: CR %04X\n",
               (unsigned)machine[OTTO_WORD_LOWER(1, OTTO_CR)]);
    }
    if (take_interrupt() == 2) {
        printf("frame %u: the drum is at its end\n", (unsigned)frame);
        start_drum();
    }
}

/* Plays a second, and counts how often voice 0 goes round. Its ACCUM is a word
   of the record, to look at without a call. */
static uint32_t play(int16_t loudest[2])
{
    uint32_t rounds = 0;

    for (uint32_t frame = 1; frame <= RATE; frame++) {
        uint32_t was = machine[OTTO_WORD_UPPER(0, OTTO_ACCUM)];
        int16_t heard[2];

        run_frame(heard);
        rounds += machine[OTTO_WORD_UPPER(0, OTTO_ACCUM)] < was;
        for (int side = 0; side < 2; side++) {
            if (heard[side] > loudest[side]) {
                loudest[side] = heard[side];
            }
        }
        after_frame(frame);
    }
    return rounds;
}

/* ---- the record ---------------------------------------------------------- */

#define A_WHILE 300u

static void hear(int16_t heard[A_WHILE][2])
{
    for (size_t i = 0; i < A_WHILE; i++) {
        run_frame(heard[i]);
    }
}

/* A machine that is kept and brought back plays on as it did. */
static int plays_on_alike(void)
{
    uint32_t kept[OTTO_RECORD_WORDS];
    int16_t first[A_WHILE][2], again[A_WHILE][2];

    memcpy(kept, machine, sizeof kept);
    hear(first);
    memcpy(machine, kept, sizeof kept);
    hear(again);
    return memcmp(first, again, sizeof first) == 0;
}

/* A word that has a bit too many is refused by every call but a reset, and so
   that nothing else changes, until it is right again. */
static uint32_t answer_to_a_wrong_word(void)
{
    uint32_t *fc = &machine[OTTO_WORD_LOWER(0, OTTO_FC)];
    uint32_t answer, mask;

    *fc += 0x20000; /* FC has 17 bits */
    answer = otto_waiting(machine, OTTO_RECORD_WORDS, &mask);
    *fc -= 0x20000;
    return answer;
}

/* ---- what the functions above are worth ---------------------------------- */

/* A voice that is taken anew, in the middle of a fade, plays as a fresh one. */
static int taken_anew_alike(void)
{
    int16_t fresh[A_WHILE][2], anew[A_WHILE][2];

    must(otto_reset(machine, OTTO_RECORD_WORDS));
    start_rise(2);
    hear(fresh);
    must(otto_reset(machine, OTTO_RECORD_WORDS));
    start_drum();
    ramp_volumes(2, -1, OTTO_MOST_ECOUNT);
    hear(anew);
    start_rise(2);
    hear(anew);
    return memcmp(fresh, anew, sizeof fresh) == 0;
}

/* Voices 5 and 6 interrupt, since the host says so, and 5 is withdrawn while
   the vector names it. Prints what is taken after two frames. */
static void withdraw(void)
{
    const uint32_t waits = OTTO_CR_STP1 | OTTO_CR_IRQ;
    int16_t heard[2];

    must(otto_reset(machine, OTTO_RECORD_WORDS));
    put(machine, OTTO_PAGE, OTTO_PAGE_LOWER(6u));
    put(machine, OTTO_CR, waits);
    put(machine, OTTO_PAGE, OTTO_PAGE_LOWER(5u));
    put(machine, OTTO_CR, waits);
    run_frame(heard);
    put(machine, OTTO_CR, OTTO_CR_STP1);
    printf("withdrawn: %u", (unsigned)take_interrupt());
    run_frame(heard);
    printf(", then %u\n", (unsigned)take_interrupt());
}

/* Plays a second at 48,000 samples, in buffers of 480, and says how many frames
   that took and how loud it was. */
static void play_at_48000(void)
{
    uint32_t before = frames;
    int16_t loudest = 0;

    if (!converter_start(&converter, RATE, 48000)) {
        fprintf(stderr, "no converter to this rate\n");
        exit(1);
    }
    for (int buffer = 0; buffer < 100; buffer++) {
        int16_t heard[480][2];

        fill(heard, 480);
        for (int i = 0; i < 480; i++) {
            loudest = heard[i][0] > loudest ? heard[i][0] : loudest;
        }
    }
    printf("48000 samples: %u frames, loudest %d\n",
           (unsigned)(frames - before), loudest);
}

int main(void)
{
    int16_t loudest[2] = { 0, 0 };

    fill_memory();
    must(otto_reset(machine, OTTO_RECORD_WORDS));
    start_wave();
    start_rise(1);
    start_drum();
    printf("voice 0 went round %u times\n", (unsigned)play(loudest));
    printf("loudest left %d, right %d\n", loudest[0], loudest[1]);
    play_at_48000();
    printf("kept and brought back: %s\n", plays_on_alike() ? "alike" : "not");
    printf("a wrong word: %u\n", (unsigned)answer_to_a_wrong_word());
    printf("taken anew: %s\n", taken_anew_alike() ? "alike" : "not");
    withdraw();
    return 0;
}
