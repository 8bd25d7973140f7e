/*
 * imports: compares how the library and the reference model bring in WAVE
 * files, good and bad ones, and says how much was compared.
 *
 *   imports                       seeds 0 to 1000; 0 is the walks
 *   imports SEED                  that seed alone
 *   imports SEED LAST [ENGINE]    from the one to the other; another engine
 */
#include <stdio.h>
#include <stdlib.h>

#include "engines.h"
#include "import_pair.h"
#include "import_traces.h"

#define LAST_SEED   1000u
#define LEAST_FILES 500000u
#define LEAST       1000u /* of each answer, loop and change */

static const uint32_t answers[] = {
    ANSWER_DONE,          ANSWER_MEMORY_LENGTH, ANSWER_FILE_BROKEN,
    ANSWER_CHUNK_COUNT,   ANSWER_SAMPLE_FORMAT, ANSWER_LOOP_INVALID,
    ANSWER_NO_PLACE
};

#define ANSWERS (sizeof answers / sizeof answers[0])

static void run_seed(uint64_t seed)
{
    if (seed == 0) {
        import_walks();
    } else {
        import_random(seed);
    }
}

static uint64_t number(int words, char **word, int place, uint64_t otherwise)
{
    return words > place ? strtoull(word[place], NULL, 10) : otherwise;
}

static void print_counts(const struct import_counts *n, const char *name)
{
    printf("imports: %s agrees with the reference: %lu files, all memory "
           "compared %lu times\n",
           name, n->files, n->wholes);
    printf("imports: answers");
    for (size_t i = 0; i < ANSWERS; i++) {
        printf("%s %u: %lu", i == 0 ? "" : ",", answers[i],
               n->answers[answers[i]]);
    }
    printf("\nimports: done with a loop of type 0 to 2: %lu %lu %lu, without "
           "one: %lu, without samples: %lu\n",
           n->loops[0], n->loops[1], n->loops[2], n->plain, n->empty);
    printf("imports: changes");
    for (uint32_t change = 0; change < WAVE_CHANGES; change++) {
        printf("%s %s %lu", change == 0 ? ":" : ",", wave_change_name(change),
               import_changes[change]);
    }
    printf("\n");
}

/* Whether each answer, loop and change was met often enough. */
static int all_met(const struct import_counts *n)
{
    int enough = n->files >= LEAST_FILES && n->plain >= LEAST &&
                 n->empty >= LEAST;

    for (size_t i = 0; i < ANSWERS; i++) {
        enough = enough && n->answers[answers[i]] >= LEAST;
    }
    for (uint32_t type = 0; type < LOOP_TYPES; type++) {
        enough = enough && n->loops[type] >= LEAST;
    }
    for (uint32_t change = 0; change < WAVE_CHANGES; change++) {
        enough = enough && import_changes[change] >= LEAST;
    }
    return enough;
}

int main(int words, char **word)
{
    uint64_t first = number(words, word, 1, 0);
    uint64_t last = number(words, word, 2, words > 1 ? first : LAST_SEED);
    const struct engine *engine = engine_named(words > 3 ? word[3] : "otto");

    if (engine == NULL) {
        fprintf(stderr, "imports: no engine %s\n", word[3]);
        return 2;
    }
    import_open(engine, &engine_reference);
    for (uint64_t seed = first; seed <= last; seed++) {
        run_seed(seed);
    }
    print_counts(&import_counts, engine->name);
    if (words == 1 && !all_met(&import_counts)) {
        printf("imports: that is too little\n");
        return 1;
    }
    return 0;
}
