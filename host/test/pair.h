/*
 * Two engines side by side: every call is made on both, each with buffers of
 * its own, and everything that was lent is compared afterwards. The first
 * difference is printed with the seed that repeats it and ends the program.
 */
#ifndef PAIR_H
#define PAIR_H

#include <stddef.h>
#include <stdint.h>

#include "engines.h"
#include "reference.h"

/* Lengths that can be lent are at most these. */
#define MOST_RECORD 704u
#define MOST_OUTPUT 32u
#define MOST_MEMORY 8388609u
#define MOST_BEHIND 3u

#define MISSED 5u /* numbers of missing words that are told apart */

struct pair_counts {
    unsigned long bytes;    /* byte calls, refused or not */
    unsigned long frames;   /* frames that were done */
    unsigned long refusals; /* of every kind */
    unsigned long few[LEAST_ACTV + 1]; /* frames of 1 to 4 voices that were
                                          refused for that; of 5, done */
    unsigned long missed[MISSED]; /* frames that were done, by how many words
                                     were missing; the last, so many or more */
    unsigned long some_wait;     /* masks that were answered, not 0 */
    unsigned long none_wait;     /* and 0 */
    unsigned long long_or_short; /* masks refused for the record's length, */
    unsigned long invalid;       /* for a word of it, */
    unsigned long untrue;        /* and of these for the mask alone */
    unsigned long codes;    /* samples compressed and codes expanded */
};

extern struct pair_counts pair_counts;

/* Makes the buffers; sample memory is filled with noise. */
void pair_open(const struct engine *one, const struct engine *other);

/* The seed that a difference is reported under, and how many words, at most
   MOST_BEHIND, lie between the record and the page that cannot be touched: by
   these it stands on every alignment that a host may give it. */
void pair_start(uint64_t seed, uint32_t behind);

/* The record as the host sees it, and a word put there by the host itself. */
uint32_t pair_word(uint32_t word);
void pair_poke(uint32_t word, uint32_t value);

/* What the control registers say that the mask of waiting voices is. */
uint32_t pair_flags(void);

/* The calls; words is the length lent, right-aligned on the same record. The
   answers are given back. */
uint32_t pair_reset(size_t words);
uint32_t pair_write(size_t words, uint32_t address, uint8_t value);
uint32_t pair_read(size_t words, uint32_t address);
uint32_t pair_set_pot(size_t words, uint32_t pot);
uint32_t pair_frame(size_t words, size_t memory_words, size_t output_values);
uint32_t pair_waiting(size_t words);
void pair_compress(int16_t sample);
void pair_expand(uint8_t code);

#endif
