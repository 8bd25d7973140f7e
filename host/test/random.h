/*
 * Repeatable random numbers: a seed fixes the whole row.
 */
#ifndef RANDOM_H
#define RANDOM_H

#include <stdint.h>

void random_seed(uint64_t seed);

/* 32 random bits, and a number below a limit that is not 0. */
uint32_t random_word(void);
uint32_t random_below(uint32_t limit);

/* True once in so many times. */
int random_once_in(uint32_t times);

#endif
