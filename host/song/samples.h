/*
 * The sample memory of the song: where each instrument's sound begins, and how
 * long its wave is.
 */
#ifndef SONG_SAMPLES_H
#define SONG_SAMPLES_H

#include "commands.h"
#include "reference.h"

#define LENGTH_OF(table) ((uint32_t)(sizeof(table) / sizeof((table)[0])))

#define SIXTEENTH (WHOLE_SAMPLE / 16u)

/* Each sound begins at a multiple of 32 words: as START and ACCUM have it, its
   place then has at most one byte that is not 0. */
#define PLUCK   0u
#define NOISE   2304u
#define THUMP   3200u
#define BASS    3584u
#define STRINGS 3712u
#define LEAD    3808u
#define HELD_D  3872u
#define HELD_A  3936u
#define HELD_FS 4000u

#define PLUCK_WORDS 2300u
#define NOISE_WORDS 892u
#define THUMP_WORDS 332u

/*
 * How long a wave is, in 2048ths of a sample. FC is whole, so each length was
 * chosen among its neighbours as the one that gives the twelve notes of the
 * instrument's lowest octave best: the pluck's within 1.3 cents, the bass's
 * within 0.7, those of the strings and the lead within 0.5. The held chord has
 * a loop for each of its three notes, which are true to 0.1 cents.
 */
#define PLUCK_WAVE   38094u
#define BASS_WAVE    (1689u * SIXTEENTH) /* 105 9/16 samples */
#define STRINGS_WAVE (1145u * SIXTEENTH) /* 71 9/16 */
#define LEAD_WAVE    (883u * SIXTEENTH)  /* 55 3/16 */
#define HELD_D_WAVE  (823u * SIXTEENTH)  /* 51 7/16 */
#define HELD_A_WAVE  (799u * SIXTEENTH)  /* 49 15/16 */
#define HELD_FS_WAVE (807u * SIXTEENTH)  /* 50 7/16 */

extern uint16_t memory[SCORE_WORDS];

void make_memory(void);

#endif
