/*
 * wave_note FILE.wav..: brings each WAVE file into sample memory and plays it
 * for a second, on its loop where it has one, a sample a frame. Prints what was
 * brought in and how loud it was.
 */
#include "machine.h"

#define RATE         31250u
#define MEMORY_WORDS 65536u
#define WORD         1000u /* where the file's samples go, in bank 0 */

static uint32_t machine[OTTO_RECORD_WORDS];
static uint16_t memory[MEMORY_WORDS];
static uint8_t file[OTTO_MOST_FILE_BYTES + 1]; /* one more shows a long one */

/* What a voice needs to play a file. */
struct import {
    uint32_t start, end, loop, samples;
};

static size_t read_file(const char *name)
{
    FILE *from = fopen(name, "rb");
    size_t bytes;

    if (from == NULL) {
        perror(name);
        exit(1);
    }
    bytes = fread(file, 1, sizeof file, from);
    (void)fclose(from);
    return bytes;
}

/* A voice fetches the word at END as well. A loop that goes round is smooth
   where that is the loop's first sample once more; one that turns, where it is
   the sample after the loop, or where there is none the last once more. */
static void close_loop(const struct import *i)
{
    uint32_t at_end = i->end / OTTO_WHOLE_SAMPLE;
    uint32_t first = i->start / OTTO_WHOLE_SAMPLE;

    if (i->loop == 0 || at_end >= MEMORY_WORDS) {
        return;
    }
    if ((i->loop & OTTO_CR_BLE) == 0) {
        memory[at_end] = memory[first];
    } else if (at_end == WORD + i->samples) {
        memory[at_end] = memory[at_end - 1];
    }
}

static struct import import_file(const char *name)
{
    struct import i;
    size_t bytes = read_file(name);

    must(otto_import(file, bytes, memory, MEMORY_WORDS, WORD, &i.start, &i.end,
                     &i.loop, &i.samples));
    printf("%u samples, loop bits %u\n", (unsigned)i.samples,
           (unsigned)i.loop);
    if (i.loop == 0 && i.samples > 0) { /* played once, up to its last */
        i.start = WORD * OTTO_WHOLE_SAMPLE;
        i.end = (WORD + i.samples - 1) * OTTO_WHOLE_SAMPLE;
    }
    close_loop(&i);
    return i;
}

/* In reverse a voice starts on the loop's last sample, else on the first of
   all. */
static void start_note(const struct import *i)
{
    uint32_t reverse = i->loop & OTTO_CR_DIR;

    put(machine, OTTO_FC, OTTO_WHOLE_SAMPLE);
    put(machine, OTTO_LVOL, OTTO_VOL_LOUDEST);
    put(machine, OTTO_K1, OTTO_K_OPEN);
    put(machine, OTTO_K2, OTTO_K_OPEN);
    put(machine, OTTO_PAGE, OTTO_PAGE_UPPER(0u));
    put(machine, OTTO_START, i->start);
    put(machine, OTTO_END, i->end);
    put(machine, OTTO_ACCUM, reverse ? i->end - OTTO_WHOLE_SAMPLE
                                     : WORD * OTTO_WHOLE_SAMPLE);
    put(machine, OTTO_CR, OTTO_CR_LP3 | OTTO_CR_LP4 | i->loop);
}

/* The loudest value of a second. */
static int32_t play(void)
{
    int32_t output[OTTO_OUTPUT_VALUES];
    int32_t loudest = 0;
    uint32_t missing;

    for (uint32_t frame = 0; frame < RATE; frame++) {
        must(otto_frame(machine, OTTO_RECORD_WORDS, memory, MEMORY_WORDS,
                        output, OTTO_OUTPUT_VALUES, &missing));
        if (missing != 0) {
            fprintf(stderr, "%u words are missing\n", (unsigned)missing);
        }
        if (abs(output[0]) > loudest) {
            loudest = abs(output[0]);
        }
    }
    return loudest;
}

int main(int words, char **word)
{
    if (words < 2) {
        fprintf(stderr, "wave_note FILE.wav..\n");
        return 2;
    }
    for (int i = 1; i < words; i++) {
        struct import import;

        must(otto_reset(machine, OTTO_RECORD_WORDS));
        import = import_file(word[i]);
        if (import.samples > 0) { /* else there is nothing to play */
            start_note(&import);
        }
        printf("loudest %d\n", play());
    }
    return 0;
}
