/*
 * held_note FULL.wav CUT.wav: a held note on a loop of about fifty samples,
 * played through the public calls, once with all of END and once with the four
 * bits cut off that END keeps below the whole sample. Prints the pitch of each.
 *
 * A player that drops those bits makes the loop up to 15/16 of a sample too
 * short. In a loop of fifty samples that is a third of a semitone.
 */
#include <math.h>

#include "machine.h"

#define RATE    31250   /* frames a second with 32 voices at 16 MHz */
#define SECONDS 4
#define FRAMES  (SECONDS * RATE)
#define SAMPLE  OTTO_WHOLE_SAMPLE
#define START   (4u * SAMPLE)
#define END     (START + 50u * SAMPLE + 15u * (SAMPLE / 16u))
#define CUT     (END / SAMPLE * SAMPLE)
#define FC      1469u   /* about 440 Hz on the whole loop */
#define MEMORY  64u

#define PI 3.14159265358979323846

static uint32_t machine[OTTO_RECORD_WORDS];
static uint16_t memory[MEMORY];
static int16_t sound[FRAMES];

/* The note's one wave fills the loop exactly, fraction and all. */
static void make_wave(void)
{
    double length = (END - START) / (double)SAMPLE;
    double first = START / (double)SAMPLE;

    for (uint32_t i = 0; i < MEMORY; i++) {
        double value = 30000.0 * sin(2.0 * PI * (i - first) / length);

        memory[i] = (uint16_t)(int16_t)lrint(value);
    }
}

/* The note stays in the memory that is lent to it. */
static void must_have(uint32_t missing)
{
    if (missing != 0) {
        fprintf(stderr, "%u words are missing\n", (unsigned)missing);
        exit(1);
    }
}

/* Voice 0 at full volume, its four poles open, on a loop to the end given. */
static void start_note(uint32_t end)
{
    must(otto_reset(machine, OTTO_RECORD_WORDS));
    put(machine, OTTO_FC, FC);
    put(machine, OTTO_LVOL, OTTO_VOL_LOUDEST);
    put(machine, OTTO_RVOL, OTTO_VOL_LOUDEST);
    put(machine, OTTO_K2, OTTO_K_OPEN);
    put(machine, OTTO_K1, OTTO_K_OPEN);
    put(machine, OTTO_PAGE, OTTO_PAGE_UPPER(0u));
    put(machine, OTTO_START, START);
    put(machine, OTTO_END, end);
    put(machine, OTTO_ACCUM, START);
    put(machine, OTTO_CR, OTTO_CR_LP3 | OTTO_CR_LP4 | OTTO_CR_LPE);
}

static void play(uint32_t end)
{
    int32_t output[OTTO_OUTPUT_VALUES];
    uint32_t missing;

    start_note(end);
    for (size_t i = 0; i < FRAMES; i++) {
        must(otto_frame(machine, OTTO_RECORD_WORDS, memory, MEMORY, output,
                        OTTO_OUTPUT_VALUES, &missing));
        must_have(missing);
        sound[i] = (int16_t)(output[0] / 16);
    }
}

/* Waves a second, from the first to the last upward crossing of 0. */
static double pitch(void)
{
    double first = 0.0;
    double last = 0.0;
    long waves = -1;

    for (size_t i = 1; i < FRAMES; i++) {
        if (sound[i - 1] < 0 && sound[i] >= 0) {
            last = (double)i - sound[i] / (double)(sound[i] - sound[i - 1]);
            waves += 1;
            first = waves == 0 ? last : first;
        }
    }
    return (double)waves * RATE / (last - first);
}

static void put_number(FILE *file, uint32_t value, int bytes)
{
    for (int i = 0; i < bytes; i++) {
        (void)fputc((int)(value >> (8 * i) & 0xFFu), file);
    }
}

/* One channel of 16 bits. */
static void save(const char *name)
{
    FILE *file = fopen(name, "wb");

    if (file == NULL) {
        perror(name);
        exit(1);
    }
    (void)fputs("RIFF", file);
    put_number(file, 36 + 2 * FRAMES, 4);
    (void)fputs("WAVEfmt ", file);
    put_number(file, 16, 4);
    put_number(file, 1, 2); /* plain samples */
    put_number(file, 1, 2); /* one channel */
    put_number(file, RATE, 4);
    put_number(file, 2 * RATE, 4);
    put_number(file, 2, 2);
    put_number(file, 16, 2);
    (void)fputs("data", file);
    put_number(file, 2 * FRAMES, 4);
    for (size_t i = 0; i < FRAMES; i++) {
        put_number(file, (uint16_t)sound[i], 2);
    }
    (void)fclose(file);
}

static void render(const char *name, const char *what, uint32_t end)
{
    double exact = (double)RATE * FC / (END - START);
    double cents;

    play(end);
    cents = 1200.0 * log2(pitch() / exact);
    cents = fabs(cents) < 0.005 ? 0.0 : cents; /* no minus before a nought */
    save(name);
    printf("%-14s loop %7.4f samples, %8.3f Hz, %+6.2f cents  %s\n", what,
           (end - START) / (double)SAMPLE, pitch(), cents, name);
}

int main(int words, char **word)
{
    if (words != 3) {
        fprintf(stderr, "held_note FULL.wav CUT.wav\n");
        return 2;
    }
    make_wave();
    render(word[1], "all of END", END);
    render(word[2], "four bits cut", CUT);
    return 0;
}
