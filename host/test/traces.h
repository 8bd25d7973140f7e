/*
 * The traces that two engines are compared on. Each ends the program at the
 * first difference.
 */
#ifndef TRACES_H
#define TRACES_H

#include <stdint.h>

/* Finds the bits each word keeps, by asking; before any other trace. Of the
   mask of waiting voices it finds none, since no voice waits then. */
void trace_prepare(void);

/* Everything that can be gone through one by one: codes, lengths, limits,
   damage to each word, masks and flags that are not what the others say, reads
   with each vector, each count of voices, each address on each page, loop
   points at their edges, the ends of the banks. */
void trace_walks(void);

/* Random calls; the seed fixes them all, whatever compiler built this: no call
   has two random arguments, whose order C leaves open. */
void trace_random(uint64_t seed);

#endif
