/*
 * differ: compares the library with the reference model over walks and random
 * traces, and says how much was compared.
 *
 *   differ                       seeds 0 to 1000; 0 is the walks
 *   differ SEED                  that seed alone
 *   differ SEED LAST [ENGINE]    from the one to the other; another engine
 */
#include <stdio.h>
#include <stdlib.h>

#include "engines.h"
#include "pair.h"
#include "traces.h"

#define LAST_SEED    1000u
#define LEAST_BYTES  10000000u
#define LEAST_FRAMES 200000u
#define LEAST_FEW    1000u /* for each count of voices */
#define LEAST_MISSED 1000u /* for each number of missing words */
#define LEAST_MASKS  1000u /* of each kind */

static void run_seed(uint64_t seed)
{
    if (seed == 0) {
        trace_walks();
    } else {
        trace_random(seed);
    }
}

static uint64_t number(int words, char **word, int place, uint64_t otherwise)
{
    return words > place ? strtoull(word[place], NULL, 10) : otherwise;
}

/* Whether frames of one to four voices, which are refused, and of five, which
   are done, were each met often enough. */
static int few_met(const struct pair_counts *n)
{
    int enough = 1;

    for (uint32_t last = 0; last <= LEAST_ACTV; last++) {
        enough = enough && n->few[last] >= LEAST_FEW;
    }
    return enough;
}

/* Whether frames that missed no word, one, two, three, and more, were each met
   often enough. */
static int missed_met(const struct pair_counts *n)
{
    int enough = 1;

    for (uint32_t missing = 0; missing < MISSED; missing++) {
        enough = enough && n->missed[missing] >= LEAST_MISSED;
    }
    return enough;
}

/* Whether masks with and without a voice were answered, and refused for each
   reason, often enough. */
static int masks_met(const struct pair_counts *n)
{
    return n->some_wait >= LEAST_MASKS && n->none_wait >= LEAST_MASKS &&
           n->long_or_short >= LEAST_MASKS && n->invalid >= LEAST_MASKS &&
           n->untrue >= LEAST_MASKS;
}

int main(int words, char **word)
{
    uint64_t first = number(words, word, 1, 0);
    uint64_t last = number(words, word, 2, words > 1 ? first : LAST_SEED);
    const struct engine *engine = engine_named(words > 3 ? word[3] : "otto");
    const struct pair_counts *n = &pair_counts;

    if (engine == NULL) {
        fprintf(stderr, "differ: no engine %s\n", word[3]);
        return 2;
    }
    pair_open(engine, &engine_reference);
    trace_prepare();
    for (uint64_t seed = first; seed <= last; seed++) {
        run_seed(seed);
    }
    printf("differ: %s agrees with the reference: %lu byte calls, %lu frames, "
           "%lu refusals, %lu samples and codes\n",
           engine->name, n->bytes, n->frames, n->refusals, n->codes);
    printf("differ: frames of 1 to 4 voices refused: %lu %lu %lu %lu, of 5 "
           "done: %lu\n",
           n->few[0], n->few[1], n->few[2], n->few[3], n->few[4]);
    printf("differ: frames that missed 0 to 3 words: %lu %lu %lu %lu, more: "
           "%lu\n",
           n->missed[0], n->missed[1], n->missed[2], n->missed[3],
           n->missed[4]);
    printf("differ: masks of waiting voices: some %lu, none %lu; refused with "
           "1: %lu, with 2: %lu, for the mask alone: %lu\n",
           n->some_wait, n->none_wait, n->long_or_short, n->invalid,
           n->untrue);
    if (words == 1 && (n->bytes < LEAST_BYTES || n->frames < LEAST_FRAMES ||
                       !few_met(n) || !missed_met(n) || !masks_met(n))) {
        printf("differ: that is too little\n");
        return 1;
    }
    return 0;
}
