/*
 * The WAVE files that two engines are compared on, and where they are brought
 * in. Each ends the program at the first difference.
 */
#ifndef IMPORT_TRACES_H
#define IMPORT_TRACES_H

#include <stdint.h>

#include "wave_changes.h"

/* How many files each change was made to. */
extern unsigned long import_changes[WAVE_CHANGES];

/* Everything that can be gone through one by one: a good file cut at every
   length, every RIFF length, each byte with each value, lengths, formats and
   loops, each place about the ends of memories and banks. */
void import_walks(void);

/* Random files at random places; the seed fixes them all. */
void import_random(uint64_t seed);

#endif
