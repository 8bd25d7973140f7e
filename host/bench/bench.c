/*
 * bench ENGINE CASE TIMES: makes one call so many times, for its instructions
 * to be counted from outside. What the calls give is printed as one number,
 * so that none can be left out and unlike engines show as unlike numbers.
 * bench cases: prints the names of the cases.
 */
#include <stdio.h>
#include <stdlib.h>
#include <string.h>

#include "engines.h"
#include "otto.h"
#include "random.h"
#include "reference.h"
#include "waves.h"

#define NOISE_WORDS 65536u /* that the voices' loops lie in */
#define MOST_ECOUNT 511u

static const struct engine *engine;
static _Alignas(16) uint32_t record[OTTO_RECORD_WORDS]; /* in every build */
static uint16_t memory[NOISE_WORDS];
static size_t memory_words = NOISE_WORDS; /* lent */
static int32_t output[OTTO_OUTPUT_VALUES];
static uint32_t missing;

/* ==== frames of voices on loops in noise ================================== */

/* Thirty-two voices that run on loops in noise, spread over channels, filter
   kinds and loop modes; extra is added to each CR, and has no flag. */
static void set_voices(uint32_t extra, uint32_t ecount)
{
    record[WORD_WAITING] = 0;
    for (uint32_t v = 0; v < VOICES; v++) {
        uint32_t *voice = record + v * VOICE_WORDS;

        voice[VOICE_CR] = CR_LPE | (v % 2) * CR_BLE | v % 4 * CR_LP3 |
                          v % 6 * CR_CA0 | extra;
        voice[VOICE_FC] = 1500 + 37 * v;
        voice[VOICE_LVOL] = 0xC000u + 257 * v;
        voice[VOICE_RVOL] = 0xE000u - 257 * v;
        voice[VOICE_K1] = 0xF000u - 1000 * v;
        voice[VOICE_K2] = 0x8000u + 1000 * v;
        voice[VOICE_LVRAMP] = 0x0100u * (v + 1);
        voice[VOICE_RVRAMP] = 0xFF00u - 0x0100u * v;
        voice[VOICE_K1RAMP] = 0x0300u + v % 2;
        voice[VOICE_K2RAMP] = 0xFC00u + v % 2;
        voice[VOICE_ECOUNT] = ecount;
        voice[VOICE_START] = v * 1000 * 2048;
        voice[VOICE_END] = voice[VOICE_START] + 900 * 2048 + 128 * v;
        voice[VOICE_ACCUM] = voice[VOICE_START] + 4096;
    }
}

static inline uint32_t one_frame(void)
{
    return engine->frame(record, OTTO_RECORD_WORDS, memory, memory_words,
                         output, OTTO_OUTPUT_VALUES, &missing);
}

/* The sum of a run with one frame more. */
static inline uint32_t with_frame(uint32_t sum, uint32_t i)
{
    sum += one_frame();
    return 31 * sum + (uint32_t)output[i % OTTO_OUTPUT_VALUES];
}

static uint32_t frames(uint32_t times, uint32_t extra, uint32_t ecount)
{
    uint32_t sum = 0;

    set_voices(extra, ecount);
    for (uint32_t i = 0; i < times; i++) {
        if (ecount != 0 && i % ecount == 0) {
            set_voices(extra, ecount); /* the ramps have run out */
        }
        sum = with_frame(sum, i);
    }
    return sum;
}

static uint32_t run_frame(uint32_t times)
{
    return frames(times, 0, 0);
}

static uint32_t run_frame_compressed(uint32_t times)
{
    return frames(times, CR_CMPD, 0);
}

static uint32_t run_frame_ramps(uint32_t times)
{
    return frames(times, 0, 500);
}

/* ==== how the cost of a frame grows ======================================= */

#define ROUNDS     5u
#define MOST_TIMES 1500u

typedef void setting(uint32_t given);

/* Frames from a setting. It is made as often in a short run as in a long one,
   and so falls out of their difference. In so few frames no voice comes to its
   loop point but where the setting means it to. */
static uint32_t frames_from(setting *set, uint32_t given, uint32_t times)
{
    uint32_t sum = 0;

    for (uint32_t round = 0; round < ROUNDS; round++) {
        set(given);
        for (uint32_t i = 0; i < times / ROUNDS; i++) {
            sum = with_frame(sum, i);
        }
    }
    return sum;
}

/* Frames of which each changes what made it costly, and so is set anew: here
   too as often in a short run as in a long one. */
static uint32_t frames_each_from(setting *set, uint32_t given, uint32_t times)
{
    uint32_t sum = 0;

    for (uint32_t i = 0; i < MOST_TIMES; i++) {
        set(given);
        if (i < times) {
            sum = with_frame(sum, i);
        }
    }
    return sum;
}

static void set_active(uint32_t voices)
{
    set_voices(0, 0);
    record[WORD_ACTV] = voices - 1;
}

static void set_stopped(uint32_t stop)
{
    set_voices(stop, 0);
}

/* A loop as long as the step: wherever a voice is in it, it passes the loop
   point in every frame, and comes back to where it was or, turning, to the
   like place at the other end. */
static void set_loop(uint32_t *voice, uint32_t start, uint32_t length,
                     uint32_t past)
{
    voice[VOICE_FC] = length;
    voice[VOICE_START] = start;
    voice[VOICE_END] = start + length;
    voice[VOICE_ACCUM] = (voice[VOICE_CR] & CR_DIR) == 0
                             ? start + past
                             : start + length - past;
}

/* Both loop modes, one way and turning, and both directions. */
static void set_events(uint32_t extra)
{
    set_voices(extra, 0);
    for (uint32_t v = 0; v < VOICES; v++) {
        uint32_t *voice = record + v * VOICE_WORDS;

        voice[VOICE_CR] |= v / 4 % 2 * CR_DIR;
        set_loop(voice, voice[VOICE_START], 2048 + 128 * v, 1 + v);
    }
}

/* Memory of so few words that all that the voices ask for lies beyond it. */
static void set_missing(uint32_t words)
{
    set_voices(0, 0);
    memory_words = words;
}

/* All that costs most, at once in every voice: two high passes, codes, the last
   word of a bank, which is missing while the next, the bank's first, is there,
   an event with an interrupt in a frame that finds the vector empty, and four
   fast ramps where slow ones rest. The loop mode and the direction are given:
   they change the cost by little, and which of them costs most depends on the
   engine. */
static void set_worst(uint32_t mode)
{
    set_voices(0, MOST_ECOUNT);
    for (uint32_t v = 0; v < VOICES; v++) {
        uint32_t *voice = record + v * VOICE_WORDS;

        voice[VOICE_CR] = CR_IRQE | CR_CMPD | v % 6 * CR_CA0 | mode;
        voice[VOICE_K1RAMP] &= ~1u;
        voice[VOICE_K2RAMP] &= ~1u;
        set_loop(voice, (BANK_WORDS - 1) * 2048u, 128 * (1 + v % 15), 5);
    }
    record[WORD_SLOW] = 1;
    record[WORD_IRQV] = NO_INTERRUPT;
}

/* Samples of one size, from the least on and with either sign. */
static void set_samples(uint32_t least)
{
    random_seed(2);
    for (size_t i = 0; i < NOISE_WORDS; i++) {
        uint32_t size = least + random_below(8);

        memory[i] = (uint16_t)(random_once_in(2) ? size : 0u - size);
    }
    set_voices(0, 0);
}

/* ==== that the settings are what is said of them ========================== */

static void must(int so, const char *what)
{
    if (!so) {
        fprintf(stderr, "bench: %s: not so that %s\n", engine->name, what);
        exit(1);
    }
}

/* With IRQE on and IRQ cleared, each voice shows whether it had an event. */
static void must_have_events(void)
{
    for (uint32_t v = 0; v < VOICES; v++) {
        uint32_t *cr = record + v * VOICE_WORDS + VOICE_CR;

        *cr = (*cr | CR_IRQE) & ~CR_IRQ;
    }
    record[WORD_WAITING] = 0;
    must(one_frame() == OTTO_DONE, "the frame is done");
    for (uint32_t v = 0; v < VOICES; v++) {
        must((record[v * VOICE_WORDS + VOICE_CR] & CR_IRQ) != 0,
             "each voice has an event in each frame");
    }
    must(record[WORD_WAITING] == 0xFFFFFFFFu, "the mask has each of them");
}

static void must_be_worst(uint32_t mode)
{
    set_worst(mode);
    for (uint32_t v = 0; v < VOICES; v++) {
        must(record[v * VOICE_WORDS + VOICE_ACCUM] >> 11 == BANK_WORDS - 1,
             "each voice is at its bank's last word");
    }
    must_have_events();
    must(missing == VOICES, "each voice misses that word");
    for (uint32_t v = 0; v < VOICES; v++) {
        must(record[v * VOICE_WORDS + VOICE_ECOUNT] == MOST_ECOUNT - 1,
             "each voice's ramps move");
    }
    must(record[WORD_IRQV] == 0, "the vector names the first voice");
}

static uint32_t run_claims(uint32_t times)
{
    set_missing(0);
    must(one_frame() == OTTO_DONE, "the frame is done");
    must(missing == 2 * VOICES, "each voice misses both words");
    memory_words = NOISE_WORDS;
    set_events(0);
    for (uint32_t i = 0; i < times; i++) {
        must_have_events();
    }
    for (uint32_t mode = 0; mode < 8; mode++) {
        must_be_worst(mode % 4 * CR_LPE | mode / 4 * CR_DIR);
    }
    return times;
}

/* ==== the other calls ===================================================== */

/* Bytes 0 to 3 of registers 0 to 12 on a voice's page, over and over. */
static uint32_t run_write(uint32_t times)
{
    uint32_t sum = 0;

    for (uint32_t i = 0; i < times; i++) {
        sum += engine->write(record, OTTO_RECORD_WORDS, i % 52, (uint8_t)i);
    }
    return 31 * sum + record[0] + record[9] + record[WORD_WAITING];
}

static uint32_t run_read(uint32_t times)
{
    uint32_t sum = 0;
    uint8_t byte = 0;

    for (uint32_t i = 0; i < times; i++) {
        sum += engine->read(record, OTTO_RECORD_WORDS, i % 64, &byte);
        sum = 31 * sum + byte;
    }
    return sum;
}

static uint32_t ask_waiting(uint32_t times)
{
    uint32_t sum = 0;
    uint32_t mask = 0;

    for (uint32_t i = 0; i < times; i++) {
        sum += engine->waiting(record, OTTO_RECORD_WORDS, &mask);
        sum = 31 * sum + mask;
    }
    return sum;
}

/* Thirty-two voices that run, of which every third waits. */
static uint32_t run_waiting(uint32_t times)
{
    set_voices(0, 0);
    for (uint32_t v = 0; v < VOICES; v += 3) {
        record[v * VOICE_WORDS + VOICE_CR] |= CR_IRQ;
        record[WORD_WAITING] |= 1u << v;
    }
    return ask_waiting(times);
}

/* No voice runs and none waits. */
static uint32_t run_waiting_none(uint32_t times)
{
    return ask_waiting(times);
}

static uint32_t run_compress(uint32_t times)
{
    uint32_t sum = 0;

    for (uint32_t i = 0; i < times; i++) {
        sum = 31 * sum + engine->compress((int16_t)(uint16_t)(i * 40503u));
    }
    return sum;
}

static uint32_t run_expand(uint32_t times)
{
    uint32_t sum = 0;

    for (uint32_t i = 0; i < times; i++) {
        sum = 31 * sum + (uint16_t)engine->expand((uint8_t)(i * 157u));
    }
    return sum;
}

/* ==== WAVE files ========================================================== */

#define IMPORT_WORD   1000u
#define FULL_SAMPLES  32712u /* of a full file with a format and one loop */
#define EMPTY_CHUNKS  8186u  /* of one with a format and two samples */

static struct wave wave;

static void add_samples(uint32_t count)
{
    wave_open(&wave, "data");
    for (uint32_t i = 0; i < count; i++) {
        wave_put(&wave, random_word(), 2);
    }
    wave_close(&wave);
}

/* The file in wave, which must be as long as can be, with so many samples. */
static uint32_t imports(uint32_t times, uint32_t count)
{
    uint32_t start = 0;
    uint32_t end = 0;
    uint32_t loop = 0;
    uint32_t samples = count;
    uint32_t sum = 0;

    must(wave.length == OTTO_MOST_FILE_BYTES, "the file is full");
    for (uint32_t i = 0; i < times; i++) {
        sum += engine->import(wave.bytes, wave.length, memory, NOISE_WORDS,
                              IMPORT_WORD, &start, &end, &loop, &samples);
        sum = 31 * sum + start + end + loop + samples +
              memory[IMPORT_WORD + i % count];
    }
    must(samples == count, "the file is brought in");
    return sum;
}

/* Nearly all samples. */
static uint32_t run_import(uint32_t times)
{
    static const struct wave_loop loop = { 1, 100, FULL_SAMPLES - 1, 0, 0 };

    wave_begin(&wave);
    wave_add_format(&wave, &wave_mono);
    add_samples(FULL_SAMPLES);
    wave_add_loop(&wave, &loop);
    return imports(times, FULL_SAMPLES);
}

/* Nearly all headers of chunks that are skipped. */
static uint32_t run_import_chunks(uint32_t times)
{
    wave_begin(&wave);
    wave_add_format(&wave, &wave_mono);
    for (uint32_t i = 0; i < EMPTY_CHUNKS; i++) {
        wave_add_empty(&wave, "skip");
    }
    add_samples(2);
    return imports(times, 2);
}

/* The loop around the calls alone, to be taken off. */
static uint32_t run_nothing(uint32_t times)
{
    uint32_t sum = 0;

    for (uint32_t i = 0; i < times; i++) {
        sum = 31 * sum + (uint8_t)(i * 157u);
    }
    return sum;
}

/* ==== the cases =========================================================== */

static const struct {
    const char *name;
    uint32_t (*run)(uint32_t times);
} calls[] = {
    { "frame", run_frame },
    { "frame_compressed", run_frame_compressed },
    { "frame_ramps", run_frame_ramps },
    { "write", run_write },
    { "read", run_read },
    { "waiting", run_waiting },
    { "waiting_none", run_waiting_none },
    { "compress", run_compress },
    { "expand", run_expand },
    { "import", run_import },
    { "import_chunks", run_import_chunks },
    { "nothing", run_nothing },
    { "claims", run_claims },
};

static const struct {
    const char *name;
    uint32_t (*run_from)(setting *set, uint32_t given, uint32_t times);
    setting *set;
    uint32_t given;
} settings[] = {
    { "frame_5", frames_from, set_active, 5 },
    { "frame_8", frames_from, set_active, 8 },
    { "frame_16", frames_from, set_active, 16 },
    { "frame_32", frames_from, set_active, 32 },
    { "frame_stopped", frames_from, set_stopped, CR_STP0 },
    { "frame_events", frames_from, set_events, 0 },
    { "frame_missing", frames_from, set_missing, 0 },
    { "frame_worst_00", frames_each_from, set_worst, 0 },
    { "frame_worst_01", frames_each_from, set_worst, CR_LPE },
    { "frame_worst_10", frames_each_from, set_worst, CR_BLE },
    { "frame_worst_11", frames_each_from, set_worst, CR_BLE | CR_LPE },
    { "frame_worst_00_back", frames_each_from, set_worst, CR_DIR },
    { "frame_worst_01_back", frames_each_from, set_worst, CR_DIR | CR_LPE },
    { "frame_worst_10_back", frames_each_from, set_worst, CR_DIR | CR_BLE },
    { "frame_worst_11_back", frames_each_from, set_worst,
      CR_DIR | CR_BLE | CR_LPE },
    { "frame_quiet", frames_from, set_samples, 0 },
    { "frame_loud", frames_from, set_samples, 32760 },
};

#define COUNT(list) (sizeof(list) / sizeof(list)[0])

static int print_cases(void)
{
    for (size_t i = 0; i < COUNT(calls); i++) {
        printf("%s\n", calls[i].name);
    }
    for (size_t i = 0; i < COUNT(settings); i++) {
        printf("%s\n", settings[i].name);
    }
    return 0;
}

static uint32_t run_case(const char *name, uint32_t times)
{
    for (size_t i = 0; i < COUNT(calls); i++) {
        if (strcmp(calls[i].name, name) == 0) {
            return calls[i].run(times);
        }
    }
    for (size_t i = 0; i < COUNT(settings); i++) {
        if (strcmp(settings[i].name, name) == 0) {
            return settings[i].run_from(settings[i].set, settings[i].given,
                                        times);
        }
    }
    fprintf(stderr, "bench: no case %s\n", name);
    exit(2);
}

/* In eight digits always, so that printing one number costs what printing
   another does. */
static void print_word(uint32_t word)
{
    char digits[9] = { 0 };

    for (int i = 0; i < 8; i++) {
        digits[i] = "0123456789ABCDEF"[word >> (28 - 4 * i) & 15];
    }
    (void)puts(digits);
}

static void prepare(void)
{
    random_seed(1);
    for (size_t i = 0; i < NOISE_WORDS; i++) {
        memory[i] = (uint16_t)random_word();
    }
    (void)engine->reset(record, OTTO_RECORD_WORDS);
}

int main(int words, char **word)
{
    uint32_t sum;

    if (words == 2 && strcmp(word[1], "cases") == 0) {
        return print_cases();
    }
    engine = words == 4 ? engine_named(word[1]) : NULL;
    if (engine == NULL) {
        fprintf(stderr, "bench ENGINE CASE TIMES\n");
        return 2;
    }
    prepare();
    sum = run_case(word[2], (uint32_t)strtoul(word[3], NULL, 10));
    print_word(sum + missing); /* so that engines are compared in it too */
    return 0;
}
