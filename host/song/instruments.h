/*
 * The song's instruments: what a note of each is, as changes of registers. A
 * tick is when.
 */
#ifndef SONG_INSTRUMENTS_H
#define SONG_INSTRUMENTS_H

#include <stdint.h>

/* Notes by their MIDI numbers; s is sharp, and 0 a rest. */
enum note {
    REST = 0,
    D2 = 38, E2 = 40, Fs2 = 42, G2 = 43, Gs2 = 44, A2 = 45, As2 = 46, B2 = 47,
    Cs3 = 49, D3 = 50, A3 = 57, As3 = 58, B3 = 59,
    Cs4 = 61, D4 = 62, E4 = 64, Fs4 = 66, G4 = 67, A4 = 69, As4 = 70, B4 = 71,
    Cs5 = 73, D5 = 74, E5 = 76, Fs5 = 78, G5 = 79, Gs5 = 80, A5 = 81, As5 = 82,
    B5 = 83, Cs6 = 85, D6 = 86
};

#define OCTAVE 12u

/* A string that is plucked, and an echo of it. */
void pluck(uint32_t tick, uint32_t note);
void echo(uint32_t tick, uint32_t note);

/* A note of the bass for so many ticks, and the last one. */
void bass(uint32_t tick, uint32_t note, uint32_t ticks);
void bass_last(uint32_t tick, uint32_t note);

enum drum { KICK, TOM, BRUSH, HAT, SOFT_HAT };

/* A stroke; of the tom at a pitch of its own, a step of FC. */
void drum(uint32_t tick, enum drum number);
void tom(uint32_t tick, uint32_t step);

/* Who plays a melody: on which voices, how loud, how bright, and where. After
   each rest it is so much louder. */
struct part {
    uint32_t first, voices;
    uint32_t level, louder;
    uint32_t brightness;
    int32_t pan;
};

#define LEAD_VOICE   15u /* and 16 */
#define SECOND_VOICE 17u

/* A melody is bowed: it begins and ends, takes another pitch, and turns the bow
   before a tick. */
void lead_pitch(uint32_t tick, const struct part *part, uint32_t note);
void lead_on(uint32_t tick, const struct part *part, uint32_t level);
void lead_off(uint32_t tick, const struct part *part);
void turn_bow(uint32_t tick, uint32_t voice);
void vibrato(uint32_t tick, uint32_t voice, uint32_t note, uint32_t ticks);

/* The strings: a chord of four notes, which goes on to the next. A ramp makes
   it louder or softer, and brighter or darker, in so many counts that are so
   many ticks apart. */
#define CHORD_NOTES 4u

void chord_pitch(uint32_t tick, const uint8_t *notes);
void chord_on(uint32_t tick, uint32_t level);
void chord_ramp(uint32_t tick, int32_t louder, int32_t brighter,
                uint32_t counts, uint32_t apart);
void chord_off(uint32_t tick);

/* The held chord, by the number of its note: D3, A3, D4, F sharp 4 and A4. */
#define HELD_NOTES 5u
#define HELD_THIRD 3u /* the F sharp, without which it is open */

void held_on(uint32_t tick, uint32_t i, uint32_t level);
void held_ramp(uint32_t tick, uint32_t i, int32_t step, uint32_t counts,
               uint32_t apart);
void held_off(uint32_t tick, uint32_t i);

void set_up_instruments(void);

#endif
