/*
 * Calls on two engines, compared whole.
 *
 * A lent buffer ends where a page begins that cannot be touched, so a load or
 * a store past its end stops the program; in front of it are words that must
 * not change. A record may end a few words before the page, which must not
 * change either. Sample memory cannot be written at all.
 */
#include "pair.h"

#include <inttypes.h>
#include <signal.h>
#include <stdio.h>
#include <stdlib.h>
#include <string.h>

#include "guard.h"
#include "otto.h"
#include "random.h"

#define FRONT   16u /* words in front of a record of the right length */
#define CANARY  0xC0FFEE5Au

/* What one engine is lent; each points just past the last value. */
struct lent {
    uint32_t *edge; /* of the record's page */
    uint32_t *record;
    int32_t *output;
    uint8_t *byte;
    uint32_t *missing;
    uint32_t *mask;
};

#define RECORD_BYTES  ((MOST_RECORD + MOST_BEHIND) * sizeof(uint32_t))
#define OUTPUT_BYTES  (MOST_OUTPUT * sizeof(int32_t))
#define BYTE_BYTES    16u
#define NUMBER_BYTES  16u
#define UNSET         0xEEEEEEEEu /* in a number's place before the call */

struct pair_counts pair_counts;

static const struct engine *engines[2];
static struct lent lents[2];
static const uint16_t *memory_end;
static uint64_t seed;
static unsigned long calls; /* since the seed was set */

/* ==== buffers ============================================================= */

static void fill_memory(void)
{
    size_t bytes = MOST_MEMORY * sizeof(uint16_t);
    uint16_t *end = guarded(bytes);

    random_seed(0);
    for (size_t i = 1; i <= MOST_MEMORY; i++) {
        end[-(ptrdiff_t)i] = (uint16_t)random_word();
    }
    guard_from_writing(end, bytes);
    memory_end = end;
}

static void fresh(struct lent *lent)
{
    for (size_t i = 1; i <= MOST_RECORD + MOST_BEHIND; i++) {
        lent->edge[-(ptrdiff_t)i] = CANARY;
    }
    for (size_t i = 1; i <= MOST_OUTPUT; i++) {
        lent->output[-(ptrdiff_t)i] = (int32_t)i;
    }
    memset(lent->byte - BYTE_BYTES, 0xEE, BYTE_BYTES);
    for (size_t i = 1; i <= NUMBER_BYTES / sizeof(uint32_t); i++) {
        lent->missing[-(ptrdiff_t)i] = UNSET;
        lent->mask[-(ptrdiff_t)i] = UNSET;
    }
}

/* ==== reporting =========================================================== */

static void stop(const char *call, const char *what)
{
    printf("differ: seed %" PRIu64 ", call %lu, %s: %s\n", seed, calls, call,
           what);
    printf("repeat with: build/differ %" PRIu64 " %" PRIu64 " %s\n", seed, seed,
           engines[0]->name);
    fflush(stdout);
    _Exit(1);
}

/* Printing is not safe in every handler; here the program ends anyway, and the
   seed is worth the risk. */
static void crashed(int number)
{
    (void)number;
    stop("any", "a buffer was touched outside its bounds");
}

static void stop_at(const char *call, const char *what, size_t place,
                    uint32_t one, uint32_t other)
{
    char text[128];

    (void)snprintf(text, sizeof text,
                   "%s %zu: %s has %" PRIu32 ", %s has %" PRIu32, what, place,
                   engines[0]->name, one, engines[1]->name, other);
    stop(call, text);
}

/* Names the first word that differs, by its place in a record of the right
   length, or by how far it stands in front of one. */
static void stop_in_record(const char *call)
{
    for (size_t i = MOST_RECORD; i > 0; i--) {
        uint32_t one = lents[0].record[-(ptrdiff_t)i];
        uint32_t other = lents[1].record[-(ptrdiff_t)i];

        if (one != other && i > OTTO_RECORD_WORDS) {
            stop_at(call, "words before the record", i - OTTO_RECORD_WORDS,
                    one, other);
        } else if (one != other) {
            stop_at(call, "word", OTTO_RECORD_WORDS - i, one, other);
        }
    }
    stop(call, "the words behind the record differ");
}

/* ==== comparing =========================================================== */

static void compare_front(const char *call)
{
    const uint32_t *front = lents[0].record - OTTO_RECORD_WORDS - FRONT;

    for (size_t i = 0; i < FRONT; i++) {
        if (front[i] != CANARY) {
            stop_at(call, "words before the record", i, front[i], CANARY);
        }
    }
}

static int unlike(const void *one, const void *other, size_t bytes)
{
    return memcmp((const uint8_t *)one - bytes, (const uint8_t *)other - bytes,
                  bytes) != 0;
}

static void compare_number(const char *call, const char *what,
                           const uint32_t *one, const uint32_t *other)
{
    if (one[-1] != other[-1]) {
        stop_at(call, what, 0, one[-1], other[-1]);
    }
    if (unlike(one, other, NUMBER_BYTES)) {
        stop(call, "the words before the number differ");
    }
}

/* All that was lent, and the answers. */
static uint32_t compare(const char *call, const uint32_t answers[2])
{
    calls += 1;
    if (answers[0] != answers[1]) {
        stop_at(call, "answer", 0, answers[0], answers[1]);
    }
    if (unlike(lents[0].edge, lents[1].edge, RECORD_BYTES)) {
        stop_in_record(call);
    }
    compare_front(call);
    if (unlike(lents[0].output, lents[1].output, OUTPUT_BYTES)) {
        stop(call, "the outputs differ");
    }
    if (unlike(lents[0].byte, lents[1].byte, BYTE_BYTES)) {
        stop(call, "the bytes differ");
    }
    compare_number(call, "missing words", lents[0].missing, lents[1].missing);
    compare_number(call, "mask", lents[0].mask, lents[1].mask);
    pair_counts.refusals += answers[0] != OTTO_DONE;
    return answers[0];
}

/* ==== the calls =========================================================== */

void pair_open(const struct engine *one, const struct engine *other)
{
    engines[0] = one;
    engines[1] = other;
    for (int i = 0; i < 2; i++) {
        lents[i].edge = guarded(RECORD_BYTES);
        lents[i].output = guarded(OUTPUT_BYTES);
        lents[i].byte = guarded(BYTE_BYTES);
        lents[i].missing = guarded(NUMBER_BYTES);
        lents[i].mask = guarded(NUMBER_BYTES);
    }
    fill_memory();
    (void)signal(SIGSEGV, crashed);
    (void)signal(SIGBUS, crashed);
}

void pair_start(uint64_t new_seed, uint32_t behind)
{
    seed = new_seed;
    calls = 0;
    for (int i = 0; i < 2; i++) {
        lents[i].record = lents[i].edge - behind;
        fresh(&lents[i]);
    }
    (void)pair_reset(OTTO_RECORD_WORDS);
}

uint32_t pair_word(uint32_t word)
{
    return *(lents[0].record - OTTO_RECORD_WORDS + word);
}

void pair_poke(uint32_t word, uint32_t value)
{
    *(lents[0].record - OTTO_RECORD_WORDS + word) = value;
    *(lents[1].record - OTTO_RECORD_WORDS + word) = value;
}

uint32_t pair_flags(void)
{
    uint32_t flags = 0;

    for (uint32_t v = 0; v < VOICES; v++) {
        flags |= pair_word(v * VOICE_WORDS + VOICE_CR) / OTTO_CR_IRQ % 2 << v;
    }
    return flags;
}

uint32_t pair_reset(size_t words)
{
    uint32_t answers[2];

    for (int i = 0; i < 2; i++) {
        answers[i] = engines[i]->reset(lents[i].record - words, words);
    }
    return compare("reset", answers);
}

uint32_t pair_write(size_t words, uint32_t address, uint8_t value)
{
    uint32_t answers[2];

    pair_counts.bytes += 1;
    for (int i = 0; i < 2; i++) {
        answers[i] = engines[i]->write(lents[i].record - words, words,
                                       address, value);
    }
    return compare("write", answers);
}

uint32_t pair_read(size_t words, uint32_t address)
{
    uint32_t answers[2];

    pair_counts.bytes += 1;
    for (int i = 0; i < 2; i++) {
        lents[i].byte[-1] = 0xEE;
        answers[i] = engines[i]->read(lents[i].record - words, words, address,
                                      lents[i].byte - 1);
    }
    return compare("read", answers);
}

uint32_t pair_set_pot(size_t words, uint32_t pot)
{
    uint32_t answers[2];

    for (int i = 0; i < 2; i++) {
        answers[i] = engines[i]->set_pot(lents[i].record - words, words, pot);
    }
    return compare("set_pot", answers);
}

/* Counts a frame of one to four voices that is refused for that, and one of
   five that is done; last is the number of the last active voice. */
static void count_few(uint32_t last, uint32_t answer)
{
    if (last <= LEAST_ACTV) {
        pair_counts.few[last] +=
            answer == (last < LEAST_ACTV ? OTTO_TOO_FEW_VOICES : OTTO_DONE);
    }
}

static void count_missed(uint32_t missing, uint32_t answer)
{
    if (answer == OTTO_DONE) {
        pair_counts.missed[missing < MISSED ? missing : MISSED - 1] += 1;
    }
}

uint32_t pair_frame(size_t words, size_t memory_words, size_t output_values)
{
    uint32_t answers[2];

    for (int i = 0; i < 2; i++) {
        lents[i].missing[-1] = UNSET;
        answers[i] = engines[i]->frame(
            lents[i].record - words, words, memory_end - memory_words,
            memory_words, lents[i].output - output_values, output_values,
            lents[i].missing - 1);
    }
    pair_counts.frames += answers[0] == OTTO_DONE;
    count_few(pair_word(WORD_ACTV), answers[0]);
    count_missed(lents[1].missing[-1], answers[0]);
    return compare("frame", answers);
}

/* Whether the record would be taken if its mask were what its control registers
   say. */
static int is_untrue_alone(void)
{
    uint32_t record[OTTO_RECORD_WORDS];
    uint32_t mask;

    memcpy(record, lents[1].record - OTTO_RECORD_WORDS, sizeof record);
    record[WORD_WAITING] = pair_flags();
    return engines[1]->waiting(record, OTTO_RECORD_WORDS, &mask) == OTTO_DONE;
}

static void count_masks(uint32_t mask, uint32_t answer)
{
    pair_counts.some_wait += answer == OTTO_DONE && mask != 0;
    pair_counts.none_wait += answer == OTTO_DONE && mask == 0;
    pair_counts.long_or_short += answer == OTTO_RECORD_LENGTH;
    pair_counts.invalid += answer == OTTO_RECORD_INVALID;
    pair_counts.untrue += answer == OTTO_RECORD_INVALID && is_untrue_alone();
}

/* The record is only read: it is as it was, on either side. A mask that is
   answered is the record's word, and what the control registers say. */
uint32_t pair_waiting(size_t words)
{
    uint8_t before[RECORD_BYTES];
    uint32_t answers[2];

    memcpy(before, (const uint8_t *)lents[0].edge - RECORD_BYTES, RECORD_BYTES);
    for (int i = 0; i < 2; i++) {
        const uint32_t *record = lents[i].record - words;

        lents[i].mask[-1] = UNSET;
        answers[i] = engines[i]->waiting(record, words, lents[i].mask - 1);
    }
    (void)compare("waiting", answers);
    if (unlike(lents[0].edge, before + RECORD_BYTES, RECORD_BYTES)) {
        stop("waiting", "the record is not as it was");
    }
    if (answers[0] == OTTO_DONE) {
        if (lents[0].mask[-1] != pair_word(OTTO_WORD_WAITING)) {
            stop("waiting", "the mask is not the record's word");
        }
        if (lents[0].mask[-1] != pair_flags()) {
            stop("waiting", "the mask is not what the control registers say");
        }
    }
    count_masks(lents[0].mask[-1], answers[0]);
    return answers[0];
}

void pair_compress(int16_t sample)
{
    uint32_t answers[2] = { engines[0]->compress(sample),
                            engines[1]->compress(sample) };

    pair_counts.codes += 1;
    if (answers[0] != answers[1]) {
        stop_at("compress", "sample", (uint16_t)sample, answers[0],
                answers[1]);
    }
}

void pair_expand(uint8_t code)
{
    uint32_t answers[2] = { (uint32_t)engines[0]->expand(code),
                            (uint32_t)engines[1]->expand(code) };

    pair_counts.codes += 1;
    if (answers[0] != answers[1]) {
        stop_at("expand", "code", code, answers[0], answers[1]);
    }
}
