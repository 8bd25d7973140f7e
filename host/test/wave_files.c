/*
 * The WAVE files that the program crates/wave_files brings in, and what it has
 * to print.
 *
 *   wave_files make        writes files into the folder it is run in, all but
 *                          those that another program wrote
 *   wave_files names       prints the names of all of them, one a line
 *   wave_files play NAME.. brings each file in on its own and prints what comes
 *                          of it: one line of numbers, and where there are
 *                          samples one more with the words
 *
 * IMPORT is the call that brings in, the model's where the build names none.
 */
#include <inttypes.h>
#include <stdio.h>
#include <stdlib.h>
#include <string.h>

#include "otto.h"
#include "reference.h"
#include "waves.h"

#ifndef IMPORT
#define IMPORT reference_import
#endif

#define MEMORY_WORDS 512u
#define WORD         16u    /* from which each file is brought in */
#define BEFORE       42405u /* in each word, hexadecimal A5A5 */
#define ROOM         (MEMORY_WORDS - WORD)

#define COUNT(list) (sizeof(list) / sizeof(list)[0])

/* ==== the files =========================================================== */

static struct wave wave;

/* Samples of either sign; both of their bytes tell where they stand. */
static void add_data(uint32_t samples)
{
    wave_open(&wave, "data");
    for (uint32_t i = 0; i < samples; i++) {
        wave_put(&wave, 4111 * i + 32768, 2);
    }
    wave_close(&wave);
}

static void add_text(const char *name, const char *text)
{
    wave_open(&wave, name);
    for (; *text != 0; text++) {
        wave_put(&wave, (uint8_t)*text, 1);
    }
    wave_close(&wave);
}

/* The format after the data, a chunk of odd length before; of two sampler
   chunks the first counts, and of its two loops the first. */
static void make_loop(void)
{
    static const struct wave_loop loops[] = { { 0, 8, 31, 0x80000000u, 0 },
                                              { 1, 2, 5, 0, 3 } };
    static const struct wave_loop later = { 2, 0, 39, 0, 0 };

    add_text("LIST", "INFOdata!");
    add_data(40);
    wave_add_format(&wave, &wave_mono);
    wave_open(&wave, "smpl");
    wave_put_loops(&wave, loops, 2, 2);
    wave_close(&wave);
    wave_add_loop(&wave, &later);
}

/* To the last sample; three bytes of the maker's own follow the loop. */
static void make_bidirectional(void)
{
    static const struct wave_loop loop = { 1, 4, 23, 0, 0 };

    wave_add_format(&wave, &wave_mono);
    add_data(24);
    wave_open(&wave, "smpl");
    wave_put_loops(&wave, &loop, 1, 1);
    wave_put(&wave, 0xABCDEF, 3);
    wave_close(&wave);
}

/* Of one sample only; the sampler chunk comes first. */
static void make_reverse(void)
{
    static const struct wave_loop loop = { 2, 15, 15, 0, 0 };

    wave_add_loop(&wave, &loop);
    add_data(16);
    wave_add_format(&wave, &wave_mono);
}

/* A format of two bytes more, and samples at the edges. */
static void make_plain(void)
{
    static const uint32_t samples[] = { 0, 1, 65535, 32767, 32768, 256, 255,
                                        BEFORE };

    wave_open(&wave, "fmt ");
    wave_put_format(&wave, &wave_mono);
    wave_put(&wave, 0, 2);
    wave_close(&wave);
    wave_open(&wave, "data");
    for (size_t i = 0; i < COUNT(samples); i++) {
        wave_put(&wave, samples[i], 2);
    }
    wave_close(&wave);
    add_text("note", "smpl");
}

static void make_empty(void)
{
    wave_add_format(&wave, &wave_mono);
    add_data(0);
}

/* As if not all of it had come over the line. */
static void make_broken(void)
{
    wave_add_format(&wave, &wave_mono);
    add_data(20);
    wave.length -= 4;
}

static void make_twice(void)
{
    wave_add_format(&wave, &wave_mono);
    add_data(6);
    add_data(6);
}

static void make_stereo(void)
{
    static const struct wave_format stereo = { 1, 2, 31250, 125000, 4, 16 };

    wave_add_format(&wave, &stereo);
    add_data(12);
}

/* A loop that ends one sample past the last. */
static void make_outside(void)
{
    static const struct wave_loop loop = { 0, 0, 10, 0, 0 };

    wave_add_format(&wave, &wave_mono);
    add_data(10);
    wave_add_loop(&wave, &loop);
}

/* One sample more than there is room for. */
static void make_crowded(void)
{
    wave_add_format(&wave, &wave_mono);
    add_data(ROOM + 1);
}

/*
 * Files without a function are stored as SoX 14.4.2 wrote them. -D, no dither,
 * makes it write the same each time. (24 bits it writes in the extensible
 * format.)
 *
 *   sox -D -r 31250 -n -b 16 sox-mono.wav synth 60s sine 1000
 *   sox -D -r 31250 -n -b 16 -c 2 sox-stereo.wav synth 30s sine 1000
 *   sox -D -r 31250 -n -b 8 sox-8bit.wav synth 61s sine 1000
 *   sox -D -r 31250 -n -b 24 sox-24bit.wav synth 60s sine 1000
 *   sox -D -r 31250 -n -b 32 -e float sox-float.wav synth 60s sine 1000
 *   sox -D -r 31250 -n -e ms-adpcm sox-adpcm.wav synth 60s sine 1000
 */
static const struct {
    const char *name;
    void (*make)(void);
} files[] = {
    { "loop.wav", make_loop },
    { "bidirectional.wav", make_bidirectional },
    { "reverse.wav", make_reverse },
    { "plain.wav", make_plain },
    { "empty.wav", make_empty },
    { "broken.wav", make_broken },
    { "twice.wav", make_twice },
    { "stereo.wav", make_stereo },
    { "outside.wav", make_outside },
    { "crowded.wav", make_crowded },
    { "sox-mono.wav", NULL },
    { "sox-stereo.wav", NULL },
    { "sox-8bit.wav", NULL },
    { "sox-24bit.wav", NULL },
    { "sox-float.wav", NULL },
    { "sox-adpcm.wav", NULL },
};

/* ==== making ============================================================== */

static FILE *opened(const char *name, const char *how)
{
    FILE *file = fopen(name, how);

    if (file == NULL) {
        perror(name);
        exit(1);
    }
    return file;
}

static void write_file(const char *name)
{
    FILE *file = opened(name, "wb");
    size_t written = fwrite(wave.bytes, 1, wave.length, file);

    if (fclose(file) != 0 || written != wave.length) {
        perror(name);
        exit(1);
    }
}

static void make(void)
{
    for (size_t i = 0; i < COUNT(files); i++) {
        if (files[i].make != NULL) {
            wave_begin(&wave);
            files[i].make();
            write_file(files[i].name);
        }
    }
}

static void print_names(void)
{
    for (size_t i = 0; i < COUNT(files); i++) {
        printf("%s\n", files[i].name);
    }
}

/* ==== playing ============================================================= */

/* One byte more shows what is too long. */
static uint8_t input[MOST_FILE_BYTES + 1];
static uint16_t memory[MEMORY_WORDS];

static size_t read_file(const char *name)
{
    FILE *file = opened(name, "rb");
    size_t bytes = fread(input, 1, sizeof input, file);

    (void)fclose(file);
    return bytes;
}

static uint32_t changed_elsewhere(uint32_t samples)
{
    uint32_t changed = 0;

    for (uint32_t place = 0; place < MEMORY_WORDS; place++) {
        if (place < WORD || place >= WORD + samples) {
            changed += memory[place] != BEFORE;
        }
    }
    return changed;
}

static void print_words(uint32_t samples)
{
    for (uint32_t i = 0; i < samples; i++) {
        printf("%s%u", i == 0 ? "" : " ", (unsigned)memory[WORD + i]);
    }
    printf("\n");
}

static void play(const char *name)
{
    size_t bytes = read_file(name);
    uint32_t start;
    uint32_t end;
    uint32_t loop;
    uint32_t samples;
    uint32_t answer;

    for (size_t place = 0; place < MEMORY_WORDS; place++) {
        memory[place] = BEFORE;
    }
    answer = IMPORT(input, bytes, memory, MEMORY_WORDS, WORD, &start, &end,
                    &loop, &samples);
    printf("%s: answer %" PRIu32 ", START %" PRIu32 ", END %" PRIu32
           ", loop %" PRIu32 ", samples %" PRIu32
           ", changed elsewhere %" PRIu32 "\n",
           name, answer, start, end, loop, samples,
           changed_elsewhere(samples));
    if (samples > 0) {
        print_words(samples);
    }
}

int main(int count, char **words)
{
    if (count == 2 && strcmp(words[1], "make") == 0) {
        make();
        return 0;
    }
    if (count == 2 && strcmp(words[1], "names") == 0) {
        print_names();
        return 0;
    }
    if (count > 2 && strcmp(words[1], "play") == 0) {
        for (int i = 2; i < count; i++) {
            play(words[i]);
        }
        return 0;
    }
    fprintf(stderr, "usage: wave_files make, names, or play NAME..\n");
    return 2;
}
