/*
 * The score as changes of registers, which are gathered in any order of time
 * and then written as commands.
 */
#ifndef SONG_CHANGES_H
#define SONG_CHANGES_H

#include <stdint.h>

/* Time goes by ticks of about 15 milliseconds: where the song is at its speed,
   one count of a ramp can fill a tick. */
#define TICK   480u /* frames, where the song is at its speed */
#define EIGHTH 15u  /* ticks */
#define BAR    (6u * EIGHTH)

/* From a tick on each has so many frames, and from the last one none. */
struct tempo {
    uint32_t tick, frames;
};

/* At a tick a voice's register takes a value: the register is given by its word
   in the voice, VOICE_CR to VOICE_ACCUM. */
void set(uint32_t tick, uint32_t voice, uint32_t word, uint32_t value);

/* Writes sample memory and all changes to standard output. Where they do not
   fit a score, the program ends with status 1. */
void write_score(const struct tempo *tempos);

#endif
