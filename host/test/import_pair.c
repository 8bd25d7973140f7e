/*
 * Files brought in on two engines, compared.
 *
 * The file, the memory that is lent and the place of each number end where a
 * page begins that cannot be touched; in front of them, and between memory and
 * page if so wanted, is what must not change. All of both memories, 32 MB, is
 * too much to compare after each call: there only what is about the part that
 * is to be written and about both ends of what is lent is compared, and the
 * whole once in a thousand calls and at the end of each seed.
 */
#define _DEFAULT_SOURCE
#include "import_pair.h"

#include <inttypes.h>
#include <signal.h>
#include <stdio.h>
#include <stdlib.h>
#include <string.h>
#include <unistd.h>

#include "guard.h"
#include "otto.h"
#include "random.h"

#define FRONT      4096u /* words in front of the longest memory */
#define ALL_WORDS  (FRONT + OTTO_MOST_MEMORY_WORDS + 1 + MOST_IMPORT_BEHIND)
#define ALL_BYTES  (ALL_WORDS * sizeof(uint16_t))
#define MARGIN     1024 /* words to either side that are compared */
#define NEW_VALUE  40503u /* what a word gets on top before a call */
#define WHOLE_EACH 1000u /* calls */
#define PATIENCE   300u /* seconds, for one seed */

enum number { START, END, LOOP, SAMPLES, NUMBERS };

/* What one engine is lent; each points just past the last value. */
struct lent {
    uint16_t *memory;
    uint32_t *numbers[NUMBERS];
};

#define NUMBER_WORDS 4u /* at each place; the last is lent */
#define UNSET        0xEEEEEEEEu

struct import_counts import_counts;

static const char *const number_names[NUMBERS] = { "START", "END", "loop",
                                                   "samples" };
static const struct engine *engines[2];
static struct lent lents[2];
static uint8_t *file_end;
static uint64_t seed;
static unsigned long calls; /* since the seed was set */

/* The call, for the report. */
static size_t file_bytes;
static size_t memory_words;
static size_t word;

/* ==== reporting =========================================================== */

static void stop(const char *what)
{
    printf("imports: seed %" PRIu64 ", call %lu: %s\n", seed, calls, what);
    printf("a file of %zu bytes, %zu words of memory, word %zu\n", file_bytes,
           memory_words, word);
    printf("repeat with: build/imports %" PRIu64 " %" PRIu64 " %s\n", seed,
           seed, engines[0]->name);
    fflush(stdout);
    _Exit(1);
}

/* Printing is not safe in every handler; here the program ends anyway, and the
   seed is worth the risk. */
static void crashed(int number)
{
    (void)number;
    stop("a buffer was touched outside its bounds");
}

/* A length that runs over can lead a walk over the chunks back to where it was
   before. */
static void waited(int number)
{
    (void)number;
    stop("the call does not end");
}

static void stop_at(const char *what, uint32_t one, uint32_t other)
{
    char text[128];

    (void)snprintf(text, sizeof text, "%s: %s has %" PRIu32 ", %s has %" PRIu32,
                   what, engines[0]->name, one, engines[1]->name, other);
    stop(text);
}

/* ==== memory ============================================================== */

/* Places are counted from the front of all words that an engine has. */
static uint16_t *words_from(int engine, int64_t from)
{
    return lents[engine].memory - ALL_WORDS + from;
}

/* Names the first word that differs by its place in the memory lent. */
static void compare_words(int64_t from, int64_t to, int64_t lent)
{
    char text[64];

    if (memcmp(words_from(0, from), words_from(1, from),
               (size_t)(to - from) * sizeof(uint16_t)) == 0) {
        return;
    }
    while (*words_from(0, from) == *words_from(1, from)) {
        from += 1;
    }
    (void)snprintf(text, sizeof text, "word %" PRId64 " of memory",
                   from - lent);
    stop_at(text, *words_from(0, from), *words_from(1, from));
}

/* A word that holds what it is to get would not show whether it was written;
   so each has another value at each call. */
static void refresh_words(int64_t from, int64_t to)
{
    for (int engine = 0; engine < 2; engine++) {
        uint16_t *words = words_from(engine, from);

        for (int64_t i = 0; i < to - from; i++) {
            words[i] = (uint16_t)(words[i] + NEW_VALUE);
        }
    }
}

#define WINDOWS 3

struct window {
    int64_t from;
    int64_t to;
};

static int64_t clamp(int64_t place)
{
    return place < 0                    ? 0
           : place > (int64_t)ALL_WORDS ? (int64_t)ALL_WORDS
                                        : place;
}

/* About the place of the samples, about the front and about the end. A word
   far off is taken to where its address would come round. */
static void set_windows(struct window *windows, int64_t lent, uint32_t samples)
{
    int64_t round = (int64_t)(word * 2) / 2;
    int64_t part = round > (int64_t)ALL_WORDS    ? (int64_t)ALL_WORDS
                   : round < -(int64_t)ALL_WORDS ? 0
                                                 : lent + round;
    int64_t end = lent + (int64_t)memory_words;

    windows[0].from = clamp(part - MARGIN);
    windows[0].to = clamp(part + (int64_t)samples + MARGIN);
    windows[1].from = clamp(lent - MARGIN);
    windows[1].to = clamp(lent + MARGIN);
    windows[2].from = clamp(end - MARGIN);
    windows[2].to = clamp(end + MARGIN);
}

static void compare_all(int64_t lent)
{
    import_counts.wholes += 1;
    compare_words(0, (int64_t)ALL_WORDS, lent);
}

/* ==== numbers ============================================================= */

static void refresh_numbers(void)
{
    for (int engine = 0; engine < 2; engine++) {
        for (int n = 0; n < NUMBERS; n++) {
            for (size_t i = 1; i <= NUMBER_WORDS; i++) {
                lents[engine].numbers[n][-(ptrdiff_t)i] = UNSET;
            }
        }
    }
}

/* The places, and what stands in front of them. */
static void compare_numbers(void)
{
    for (int n = 0; n < NUMBERS; n++) {
        const uint32_t *one = lents[0].numbers[n];
        const uint32_t *other = lents[1].numbers[n];

        if (one[-1] != other[-1]) {
            stop_at(number_names[n], one[-1], other[-1]);
        }
        for (size_t i = 2; i <= NUMBER_WORDS; i++) {
            if (one[-(ptrdiff_t)i] != UNSET) {
                stop("what stands beside a number has changed");
            }
        }
    }
}

/* ==== counting ============================================================ */

static const uint32_t loop_bits[LOOP_TYPES] = { CR_LPE, CR_BLE | CR_LPE,
                                                CR_LPE | CR_DIR };

static void count(uint32_t answer)
{
    uint32_t loop = lents[0].numbers[LOOP][-1];

    import_counts.files += 1;
    import_counts.answers[answer] += 1;
    if (answer != OTTO_DONE) {
        return;
    }
    import_counts.plain += loop == 0;
    import_counts.empty += lents[0].numbers[SAMPLES][-1] == 0;
    for (uint32_t type = 0; type < LOOP_TYPES; type++) {
        import_counts.loops[type] += loop == loop_bits[type];
    }
}

/* ==== the calls =========================================================== */

static void fill_memories(void)
{
    random_seed(0);
    for (size_t i = 0; i < ALL_WORDS; i++) {
        *words_from(0, (int64_t)i) = (uint16_t)random_word();
    }
    memcpy(words_from(1, 0), words_from(0, 0), ALL_BYTES);
}

void import_open(const struct engine *one, const struct engine *other)
{
    engines[0] = one;
    engines[1] = other;
    for (int engine = 0; engine < 2; engine++) {
        lents[engine].memory = guarded(ALL_BYTES);
        for (int n = 0; n < NUMBERS; n++) {
            lents[engine].numbers[n] = guarded(NUMBER_WORDS * sizeof(uint32_t));
        }
    }
    file_end = guarded(MOST_WAVE_BYTES);
    fill_memories();
    (void)signal(SIGSEGV, crashed);
    (void)signal(SIGBUS, crashed);
    (void)signal(SIGALRM, waited);
}

void import_start(uint64_t new_seed)
{
    seed = new_seed;
    calls = 0;
    (void)alarm(PATIENCE);
}

static uint32_t call(int engine, int64_t lent)
{
    uint32_t *const *numbers = lents[engine].numbers;

    return engines[engine]->import(file_end - file_bytes, file_bytes,
                                   words_from(engine, lent), memory_words,
                                   word, numbers[START] - 1, numbers[END] - 1,
                                   numbers[LOOP] - 1, numbers[SAMPLES] - 1);
}

uint32_t import_both(const struct wave *wave, size_t words, size_t behind,
                     size_t at)
{
    int64_t lent = (int64_t)(ALL_WORDS - behind - words);
    struct window windows[WINDOWS];
    uint32_t answers[2];

    calls += 1;
    file_bytes = wave->length;
    memory_words = words;
    word = at;
    memcpy(file_end - file_bytes, wave->bytes, file_bytes);
    set_windows(windows, lent, (uint32_t)file_bytes / 2);
    for (int i = 0; i < WINDOWS; i++) {
        refresh_words(windows[i].from, windows[i].to);
    }
    refresh_numbers();
    for (int engine = 0; engine < 2; engine++) {
        answers[engine] = call(engine, lent);
    }
    if (answers[0] != answers[1]) {
        stop_at("answer", answers[0], answers[1]);
    }
    compare_numbers();
    for (int i = 0; i < WINDOWS; i++) {
        compare_words(windows[i].from, windows[i].to, lent);
    }
    if (memcmp(file_end - file_bytes, wave->bytes, file_bytes) != 0) {
        stop("the file has changed");
    }
    if (calls % WHOLE_EACH == 0) {
        compare_all(lent);
    }
    count(answers[0]);
    return answers[0];
}

void import_end(void)
{
    compare_all(0);
}
