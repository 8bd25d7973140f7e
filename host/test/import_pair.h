/*
 * Two engines side by side that bring in WAVE files: every call is made on
 * both, each with sample memory and places for numbers of its own, and what
 * was lent is compared afterwards. The first difference is printed with the
 * seed that repeats it and ends the program.
 */
#ifndef IMPORT_PAIR_H
#define IMPORT_PAIR_H

#include <stddef.h>
#include <stdint.h>

#include "engines.h"
#include "reference.h"
#include "waves.h"

#define LOOP_TYPES 3u

struct import_counts {
    unsigned long files;
    unsigned long answers[ANSWER_NO_PLACE + 1];
    unsigned long loops[LOOP_TYPES]; /* files done with a loop, by its type */
    unsigned long plain;             /* files done without one */
    unsigned long empty;             /* files done without samples */
    unsigned long wholes;            /* comparisons of all memory */
};

extern struct import_counts import_counts;

/* Makes the buffers; sample memory is filled with noise. */
void import_open(const struct engine *one, const struct engine *other);

/* The seed that a difference is reported under. */
void import_start(uint64_t seed);

/* The file is brought in on both. Of memory so many words are lent, and behind
   them `behind` more, at most MOST_IMPORT_BEHIND, are not. */
#define MOST_IMPORT_BEHIND 64u
uint32_t import_both(const struct wave *wave, size_t memory_words,
                     size_t behind, size_t word);

/* Compares all of both memories, so that nothing is left for the next seed. */
void import_end(void);

#endif
